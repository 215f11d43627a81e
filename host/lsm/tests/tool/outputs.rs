// An output appears whole or not at all, whatever stops the tool.

use std::fs::{self, File};
use std::os::unix::fs::symlink;
use std::os::unix::process::{CommandExt, ExitStatusExt};
use std::process::{Child, Command, Stdio};

use crate::made::Made;
use crate::run::{lsm, names, said, shell, tool, wait_for, Folder, Said};

#[test]
fn the_input_is_never_the_output() {
    let folder = Folder::new("input");
    let bytes = Made::default().bytes();
    folder.put("m.raw", &bytes);
    fs::hard_link(folder.0.join("m.raw"), folder.0.join("hard.raw")).unwrap();
    symlink("m.raw", folder.0.join("soft.raw")).unwrap();
    for place in ["m.raw", "./m.raw", "hard.raw", "soft.raw"] {
        let want = format!("lsm: {place}: this is the file that is read\n");
        assert_eq!(lsm(&folder, &["picture", "m.raw", "-o", place]).error(), (2, want.as_str()));
    }
    let said = shell(&folder, "\"$LSM\" picture - -o m.raw < m.raw");
    assert_eq!(said.error(), (2, "lsm: m.raw: this is the file that is read\n"));
    fs::hard_link(folder.0.join("m.raw"), folder.0.join("m_s0_t0_c0_z0.raw")).unwrap();
    let said = lsm(&folder, &["export", "m.raw", "-o", ".", "--as", "raw"]);
    assert_eq!(said.error(), (2, "lsm: ./m_s0_t0_c0_z0.raw: this is the file that is read\n"));
    assert_eq!(folder.get("m.raw"), bytes);
    assert_eq!(folder.names(), ["hard.raw", "m.raw", "m_s0_t0_c0_z0.raw", "soft.raw"]);
}

#[test]
fn places_that_take_no_file() {
    let folder = Folder::new("places");
    folder.put("m.lsm", &Made::default().bytes());
    fs::create_dir(folder.0.join("d.raw")).unwrap();
    shell(&folder, "mkfifo f.raw");
    let cases = [
        ("d.raw", "stands there already, and is no file"),
        ("f.raw", "stands there already, and is no file"),
        ("missing/o.raw", "No such file or directory (os error 2)"),
        ("m.lsm/o.raw", "Not a directory (os error 20)"),
    ];
    for (place, what) in cases {
        let want = format!("lsm: {place}: {what}\n");
        assert_eq!(lsm(&folder, &["picture", "m.lsm", "-o", place]).error(), (2, want.as_str()));
    }
    assert_eq!(lsm(&folder, &["export", "m.lsm", "-o", "m.lsm"]).error(), (2, "lsm: m.lsm: File exists (os error 17)\n"));
    assert_eq!(folder.names(), ["d.raw", "f.raw", "m.lsm"]);
}

// A name may have 255 bytes, and the name beside it is longer.
#[test]
fn long_names() {
    let folder = Folder::new("long-names");
    folder.put("m.lsm", &Made::default().bytes());
    let place = "n".repeat(251) + ".raw";
    assert_eq!(lsm(&folder, &["picture", "m.lsm", "-o", &place]), said(0, "", ""));
    assert_eq!(folder.names(), ["m.lsm", &place]);
}

#[test]
fn a_full_standard_output_and_a_reader_that_left() {
    let folder = Folder::new("full");
    folder.put("m.lsm", &Made::default().bytes());
    let full = "lsm: standard output: No space left on device (os error 28)\n";
    for words in ["list m.lsm", "list --json m.lsm", "check m.lsm", "export m.lsm -o d", "--help", "list --help"] {
        let line = format!("\"$LSM\" {words} > /dev/full");
        assert_eq!(shell(&folder, &line).error(), (2, full), "{words}");
    }
    // it reads its input only after nobody reads what it says any more
    let mut child = tool(&folder, &["list", "-"]).stdin(Stdio::piped()).stdout(Stdio::piped()).stderr(Stdio::piped()).spawn().unwrap();
    drop(child.stdout.take());
    std::io::Write::write_all(&mut child.stdin.take().unwrap(), b"II*").unwrap();
    assert_eq!(Said::of(child.wait_with_output().unwrap()), said(2, "", ""));
}

#[test]
fn a_limit_of_a_file_s_size_leaves_nothing() {
    let folder = Folder::new("limit");
    folder.put("m.lsm", &Made { width: 1000, height: 1000, ..Made::default() }.bytes());
    folder.put("o.raw", b"before");
    for words in ["picture m.lsm -o o.raw", "picture m.lsm -o o.png", "export m.lsm -o d"] {
        let said = shell(&folder, &format!("ulimit -f 100; \"$LSM\" {words}"));
        assert_eq!(said.status, 2);
        assert!(said.err.ends_with(": File too large (os error 27)\n"), "{}", said.err);
    }
    assert_eq!(folder.names(), ["d", "m.lsm", "o.raw"]);
    assert_eq!((folder.get("o.raw").as_slice(), names(&folder.0.join("d")).len()), (&b"before"[..], 0));
}

extern "C" {
    fn signal(number: i32, handler: usize) -> usize;
}

// m.lsm with a picture of 2 GiB, whose strip is a hole of the file, so that there is time to stop what reads it.
fn large_hole(folder: &Folder) {
    let made = Made { width: 65536, height: 32768, ..Made::default() };
    let file = folder.put("m.lsm", &made.head());
    File::options().write(true).open(file).unwrap().set_len((made.head().len() + made.picture_bytes()) as u64).unwrap();
}

// Begins to write that picture. Whoever runs the tests may have ignored signals, as nohup does: those that are named are so, the others are not.
fn begun(folder: &Folder, ignored: &'static [i32]) -> Child {
    large_hole(folder);
    let mut command = tool(folder, &["picture", "m.lsm", "-o", "o.raw"]);
    let signals = move || {
        for number in [1, 2, 15] {
            // SAFETY: 0 is SIG_DFL and 1 SIG_IGN, and between fork and exec this may be called.
            unsafe { signal(number, ignored.contains(&number) as usize) };
        }
        Ok(())
    };
    // SAFETY: as above; nothing is allocated.
    unsafe { command.pre_exec(signals) };
    let child = command.stdout(Stdio::piped()).stderr(Stdio::piped()).spawn().unwrap();
    wait_for(|| written(folder, &child).filter(|&n| n > 0));
    child
}

// How much there is of the output beside its place.
fn written(folder: &Folder, child: &Child) -> Option<u64> {
    let beside = folder.0.join(format!(".o.raw.{}.part", child.id()));
    fs::metadata(beside).ok().map(|m| m.len())
}

fn kill(child: &Child, signal: &str) {
    assert!(Command::new("kill").args(["-s", signal, &child.id().to_string()]).status().unwrap().success());
}

// Whoever waits for it sees the signal. One that was ignored when the tool began stops nothing.
#[test]
fn a_stopped_tool_leaves_nothing() {
    for (signal, number) in [("INT", 2), ("TERM", 15), ("HUP", 1)] {
        let folder = Folder::new(signal);
        let child = begun(&folder, &[]);
        kill(&child, signal);
        let o = child.wait_with_output().unwrap();
        assert_eq!((o.status.signal(), o.stderr.as_slice()), (Some(number), &b""[..]));
        assert_eq!(folder.names(), ["m.lsm"]);
    }
    let folder = Folder::new("nohup");
    let child = begun(&folder, &[1]);
    kill(&child, "HUP");
    // long after it the tool still writes
    wait_for(|| written(&folder, &child).filter(|&n| n > 100 << 20));
    kill(&child, "TERM");
    assert_eq!(child.wait_with_output().unwrap().status.signal(), Some(15));
    assert_eq!(folder.names(), ["m.lsm"]);
}

// As `begun`, and of check, which writes nothing, as soon as it has mapped the file.
#[test]
fn a_file_that_becomes_shorter_is_said() {
    let want = "lsm: m.lsm: the file became shorter while it was read, or its disk can't be read\n";
    let folder = Folder::new("shorter");
    let cut = || File::options().write(true).open(folder.0.join("m.lsm")).unwrap().set_len(4096).unwrap();
    let child = begun(&folder, &[]);
    cut();
    assert_eq!(Said::of(child.wait_with_output().unwrap()), said(2, "", want));
    assert_eq!(folder.names(), ["m.lsm"]);
    large_hole(&folder);
    let child = tool(&folder, &["check", "m.lsm"]).stdout(Stdio::piped()).stderr(Stdio::piped()).spawn().unwrap();
    wait_for(|| fs::read_to_string(format!("/proc/{}/maps", child.id())).ok().filter(|maps| maps.contains("m.lsm")));
    cut();
    assert_eq!(Said::of(child.wait_with_output().unwrap()), said(2, "", want));
}
