// Compares a port of the LSM reader with the original. README.md one folder up says how it is run.
mod bench;
mod bits;
mod check;
mod interleaved;
mod joined;
mod large;
mod lent;
mod make;
#[cfg_attr(feature = "library", allow(dead_code))]
mod negative;
mod past;
mod pictures;
mod pixels;
mod port;
mod random;
mod record;
mod rules;
mod signs;
#[cfg_attr(feature = "library", allow(dead_code))]
mod standin;
mod twin;
#[cfg_attr(feature = "library", allow(dead_code))]
mod uneven;
mod walk;

use check::{Both, Count, Tally};
use random::Random;
use std::time::{Duration, Instant};

struct Options {
    seed: u64,
    seeds: u64,
    from: u64,
    cases: u64,
    bases: u64,
    case: Option<u64>,
    file: Option<String>,
    record: Option<String>,
    count: usize,
    circles: u64,
    handed: usize,
    large: bool,
    pictures: bool,
    keep: u64,
    fault: usize,
    bench: bool,
    hostile: bool,
    overlapping: Option<u64>,
    opens: bool,
}

const USAGE: &str = "options:
  --seed S       the seed (1)
  --seeds K      so many seeds, from S on (1)
  --cases N      made files of each seed (200000)
  --from N       the first case (0)
  --bases N      small files of each seed that are cut at every length and changed at every byte (20)
  --circles N    files with a chain that comes back on itself, for each seed (4)
  --handed N     so many of a hundred accepted files get calls with what doesn't belong together (20)
  --no-large     without the large files
  --no-pictures  without planes and regions
  --keep N       go on until N differences were shown (1)
  --fault N      a port with a fault, 1 to 62, to see that it is noticed
  --bench        times of both instead of a comparison
  --hostile      times of opening hostile files
  --overlapping N [--opens]   times of opening N directories that lie over one another, once each, in a file that is refused or that opens;
                              999000 take minutes
  --case N       only this case: its bytes and both answers
  --file PATH    only this file
  --record DIR --count N   write the lists of recorded answers";

fn options() -> Options {
    let mut o = Options {
        seed: 1,
        seeds: 1,
        from: 0,
        cases: 200_000,
        bases: 20,
        case: None,
        file: None,
        record: None,
        count: 600,
        circles: 4,
        handed: 20,
        large: true,
        pictures: true,
        keep: 1,
        fault: 0,
        bench: false,
        hostile: false,
        overlapping: None,
        opens: false,
    };
    let mut args = std::env::args().skip(1);
    while let Some(a) = args.next() {
        let mut value = || args.next().unwrap_or_else(|| usage());
        fn number(text: String) -> u64 {
            let n = match text.strip_prefix("0x") {
                Some(hex) => u64::from_str_radix(hex, 16),
                None => text.parse(),
            };
            n.unwrap_or_else(|_| usage())
        }
        match a.as_str() {
            "--seed" => o.seed = number(value()),
            "--seeds" => o.seeds = number(value()),
            "--from" => o.from = number(value()),
            "--cases" => o.cases = number(value()),
            "--bases" => o.bases = number(value()),
            "--case" => o.case = Some(number(value())),
            "--file" => o.file = Some(value()),
            "--record" => o.record = Some(value()),
            "--count" => o.count = number(value()) as usize,
            "--circles" => o.circles = number(value()),
            "--handed" => o.handed = number(value()) as usize,
            "--no-large" => o.large = false,
            "--no-pictures" => o.pictures = false,
            "--fault" => o.fault = number(value()) as usize,
            "--keep" => o.keep = number(value()),
            "--bench" => o.bench = true,
            "--hostile" => o.hostile = true,
            "--opens" => o.opens = true,
            "--overlapping" => o.overlapping = Some(number(value())).filter(|&n| 0 < n).or_else(|| usage()),
            _ => usage(),
        }
    }
    o
}

fn usage() -> ! {
    eprintln!("{USAGE}");
    std::process::exit(2)
}

pub fn hex(bytes: &[u8]) -> String {
    let mut s = String::new();
    for (i, b) in bytes.iter().enumerate() {
        if i % 32 == 0 {
            s.push_str(if i == 0 { "" } else { "\n" });
        }
        s.push_str(&format!("{b:02x}"));
    }
    s
}

// The calls of a case come from numbers of their own, so that a shortened file gets the same calls.
fn calls(seed: u64, case: u64) -> Random {
    Random::of_case(seed, case, 1)
}

// The smallest file found that still differs: shorter, then with zeros.
fn shrink(both: &mut Both, file: &[u8], seed: u64, case: u64) -> Vec<u8> {
    let kept = both.tally.clone();
    let mut best = file.to_vec();
    let mut left = 4000;
    let mut differs = |f: &[u8], left: &mut i32| {
        *left -= 1;
        0 < *left && !walk::walk(f).circle && both.examine(f, &mut calls(seed, case)).is_some()
    };
    let mut step = best.len() / 2;
    while 0 < step {
        while step <= best.len() && differs(&best[..best.len() - step], &mut left) {
            best.truncate(best.len() - step);
        }
        step /= 2;
    }
    for size in [64, 16, 4, 2, 1] {
        let mut at = 0;
        while at < best.len() {
            let end = (at + size).min(best.len());
            if best[at..end].iter().any(|&b| b != 0) {
                let mut f = best.clone();
                f[at..end].fill(0);
                if differs(&f, &mut left) {
                    best = f;
                }
            }
            at = end;
        }
    }
    both.tally = kept;
    best
}

fn show(both: &mut Both, file: &[u8], seed: u64, case: u64, difference: &str, what: &str) {
    println!("DIFFERENCE: {what}");
    println!("  {difference}");
    if file.len() < 100_000 {
        let small = shrink(both, file, seed, case);
        let kept = both.tally.clone();
        let again = both.examine(&small, &mut calls(seed, case)).unwrap_or_default();
        both.tally = kept;
        println!("  file of {} bytes, shortened to {}:", file.len(), small.len());
        println!("  {again}");
        println!("{}", hex(&small));
    }
}

fn line(name: &str, c: &Count) {
    let [ok, a, b, d, e, f, g, h, i, j] = c.0;
    println!("{name:<10}{:>12}  accepted {ok}  1: {a}  2: {b}  3: {d}  4: {e}  5: {f}  6: {g}  7: {h}  8: {i}  9: {j}", c.sum());
}

fn report(t: &Tally, o: &Options, port: &str, took: Duration, differences: u64) {
    println!("port: {port}");
    println!(
        "seeds {} to {}, cases {} to {}, {} small files cut and changed at every byte",
        o.seed,
        o.seed + o.seeds - 1,
        o.from,
        o.from + o.cases - 1,
        o.bases
    );
    println!("files {}, on average {} bytes", t.files, t.bytes / t.files.max(1));
    line("openings", &t.openings);
    line("lookups", &t.lookups);
    line("planes", &t.planes);
    line("regions", &t.regions);
    println!(
        "files with several scenes {}, with thumbnails {}, with a note {}; channels with a name {}, with a colour {}",
        t.scenes, t.thumbnails, t.notes, t.names, t.colours
    );
    println!(
        "handed in: {} descriptions and tables, {} words that are no description, {} that the original can't be given",
        t.handed, t.no_description, t.not_handed
    );
    let past = &t.past;
    println!(
        "past the tested pages: {} regions, of them {} accepted, {} refused with 2 for a missing sample; {} accepted against the original",
        past.regions, past.accepted, past.missing, past.refused_by_original
    );
    let s = &t.series;
    println!(
        "series: {} opened, {} refused by their twins; past t 0 {} planes and {} regions accepted",
        s.opened, s.refused, s.later_planes, s.later_regions
    );
    let i = &t.interleaved;
    println!(
        "interleaved channels: {} opened ({} of them series), {} refused by their twins; {} planes and {} regions accepted; {} calls judged by the original too, {} by the host alone",
        i.opened, i.series, i.refused, i.planes, i.regions, i.both, i.alone
    );
    let b = &t.bits;
    println!(
        "bits for each channel: {} refused with 8 and {} with 1 by the host; opened with several values {} in line and {} out of line",
        b.uneven, b.past, b.in_line, b.out_of_line
    );
    let [scalars, arrays, bits] = t.signs.negative;
    let opened = t.signs.opened;
    println!(
        "signed types: refused with 9 by the host for a scalar {scalars}, for a value of an array {arrays}, for a further value of the bits {bits}; opened with such scalars {}, arrays {}, further values {}",
        opened[0], opened[1], opened[2]
    );
    println!(
        "not compared: {} circles beyond those asked ({} asked), {} pictures that the original would reserve first, {} series and {} files of interleaved channels without a twin",
        t.circles_left, t.circles, t.not_reserved, s.left_out, i.left_out
    );
    println!("refusals of opening, by the original's words:");
    for (text, n) in &t.reasons {
        println!("{n:>10}  {text}");
    }
    println!(
        "time: {:.1} s, of these {:.1} in the original, {:.1} in the port; {:.0} files in a second",
        took.as_secs_f64(),
        t.original.as_secs_f64(),
        t.port.as_secs_f64(),
        t.files as f64 / took.as_secs_f64()
    );
    println!("differences {differences}");
}

fn main() {
    let o = options();
    std::panic::set_hook(Box::new(|p| eprintln!("{p}")));
    if let Some(folder) = &o.record {
        record::write(folder, o.seed, o.count);
        return;
    }
    if let Some(directories) = o.overlapping {
        bench::overlapped(&mut *port::port(o.fault), directories, o.opens);
        return;
    }
    if o.hostile {
        bench::hostile(&mut *port::port(o.fault));
        return;
    }
    if o.bench {
        bench::run(&mut *port::port(o.fault));
        return;
    }
    let mut both = Both::new(port::port(o.fault));
    both.pictures &= o.pictures;
    both.handed = o.handed;
    if let Some(case) = o.case {
        both.circles = 1;
        both.tell = true;
        let f = match &o.file {
            Some(path) => std::fs::read(path).expect("the file"),
            None => make::file(o.seed, case),
        };
        println!("seed {} case {case}: {} bytes\n{}", o.seed, f.len(), hex(&f));
        let d = both.examine(&f, &mut calls(o.seed, case));
        println!("{}", d.map_or("no difference".to_string(), |d| format!("DIFFERENCE {d}")));
        return;
    }
    let start = Instant::now();
    let mut differences = 0;
    let settled = both.settled_openings().or_else(|| if both.pictures { both.settled() } else { None });
    if let Some(d) = settled {
        differences += 1;
        println!("DIFFERENCE: {d}");
    }
    if o.large {
        both.circles = 3;
        for (i, (name, f)) in large::files().into_iter().enumerate() {
            let case = i as u64;
            if let Some(d) = both.examine(&f, &mut calls(o.seed, case)) {
                differences += 1;
                show(&mut both, &f, o.seed, case, &d, &format!("large file {i}, {name}"));
            }
        }
    }
    // The rate is that of the made files alone.
    let large = start.elapsed();
    'seeds: for seed in o.seed..o.seed + o.seeds {
        both.circles = o.circles;
        let mut one = |case: u64, f: &[u8]| {
            if let Some(d) = both.examine(f, &mut calls(seed, case)) {
                differences += 1;
                let what = format!("--seed {seed} --case {case}");
                show(&mut both, f, seed, case, &d, &what);
            }
            o.keep <= differences
        };
        for case in o.from..o.from + o.cases {
            if one(case, &make::file(seed, case)) {
                break 'seeds;
            }
        }
        for number in 0..o.bases {
            let whole = make::base(seed, number);
            for len in 0..whole.len() as u64 {
                let case = make::TRUNCATIONS + number * make::LENGTHS + len;
                if one(case, &whole[..len as usize]) {
                    break 'seeds;
                }
            }
            let k = make::VALUES.len() as u64;
            let mut f = whole.clone();
            for at in 0..whole.len() {
                for (i, &v) in make::VALUES.iter().enumerate() {
                    f[at] = v;
                    let case = make::CHANGES + (number * make::LENGTHS + at as u64) * k + i as u64;
                    if one(case, &f) {
                        break 'seeds;
                    }
                }
                f[at] = whole[at];
            }
        }
    }
    let name = both.port.name();
    report(&both.tally, &o, name, start.elapsed() - large, differences);
    if differences != 0 {
        std::process::exit(1);
    }
}
