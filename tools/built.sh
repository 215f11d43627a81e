# For ./lsm and ./lsm-list, which source this file: a program is built once and kept in target/bin, with the checksum of the sources that it was
# built from beside it. What stands there for the sources as they are is run as it is: that takes no toolchain, and nothing is written.

say() { echo "$name: $*" >&2; }
give_up() {
    say "$*"
    exit 2
}

# The checksum of all sources below these paths, by their names and bytes.
sources() {
    (cd "$root" && find "$@" \( -name out -o -name must-fail -o -name target \) -prune -o -type f -print0 | LC_ALL=C sort -z |
        xargs -0 sha256sum | sha256sum | cut -d ' ' -f 1)
}

# Runs a command, and says how long it has taken: on a terminal each second, elsewhere each minute. What it writes is shown where it fails.
waiting() { # waiting COMMAND...
    local begun=$SECONDS said=0 gone pid
    log=$(mktemp)
    set -m
    "$@" > "$log" 2>&1 < /dev/null &
    pid=$!
    set +m
    trap 'kill -- -$pid 2> /dev/null; rm -f "$log"; exit 2' INT TERM HUP
    while kill -0 "$pid" 2> /dev/null; do
        gone=$((SECONDS - begun))
        if [ -t 2 ]; then
            printf '\r%s: %d min %02d s so far ' "$name" $((gone / 60)) $((gone % 60)) >&2
        elif ((gone / 60 > said)); then
            said=$((gone / 60))
            say "$said min so far"
        fi
        sleep 0.5
    done
    if [ -t 2 ]; then printf '\r%60s\r' '' >&2; fi
    trap - INT TERM HUP
    if ! wait "$pid"; then
        cat "$log" >&2
        rm -f "$log"
        give_up "building failed; what it said stands above"
    fi
    rm -f "$log"
}

# Where the program of these sources is not there: looks for the tools, says how long building takes, builds, and keeps what was built.
built() { # built HOW-LONG PROGRAM 'TOOLS' 'SOURCES' COMMAND...
    local long=$1 program=$2 tools=$3 sum tool
    sum=$(sources $4)
    shift 4
    kept=$root/target/bin/$name
    if [ -x "$kept" ] && [ "$(cat "$kept.sources" 2> /dev/null)" = "$sum" ]; then return; fi
    for tool in $tools; do
        command -v "$tool" > /dev/null || give_up "no program of these sources was built yet, and $tool, which builds it, isn't here"
    done
    mkdir -p "$root/target/bin" 2> /dev/null && [ -w "$root/target/bin" ] ||
        give_up "no program of these sources was built yet, and $root can't be written to: run ./$name once where it can"
    say "proving and building the program first, which takes $long; the next time it is there"
    waiting "$@"
    rm -f "$kept.sources"
    cp "$program" "$kept.new" && mv "$kept.new" "$kept" && echo "$sum" > "$kept.sources" || give_up "$kept can't be written"
    say "built"
}
