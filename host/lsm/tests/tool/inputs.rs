// `lsm check`, and what every command says of files that can't be read.

use std::ffi::OsStr;
use std::fs;
use std::os::unix::ffi::OsStrExt;
use std::os::unix::fs::PermissionsExt;
use std::os::unix::net::UnixListener;

use crate::made::Made;
use crate::run::{fed, lsm, said, shell, tool, Folder};

#[test]
fn check_says_each_picture_that_is_refused() {
    let folder = Folder::new("check");
    let made = Made { channels: 2, depth: 3, times: 2, ..Made::default() };
    folder.put("whole.lsm", &made.bytes());
    folder.put("lost.lsm", &Made { lost: Some(4), ..made }.bytes());
    folder.put("no.lsm", b"II*");
    assert_eq!(lsm(&folder, &["check", "whole.lsm"]), said(0, "whole.lsm: accepted, 12 pictures\n", ""));
    let words = "the bytes can't be the picture that they announce";
    let lost = format!(
        "lost.lsm: scene 0, t 1, c 0, z 1: refused with 2: {words}\n\
         lost.lsm: scene 0, t 1, c 1, z 1: refused with 2: {words}\n\
         lost.lsm: 2 of 12 pictures refused\n"
    );
    let no = "no.lsm: refused with 1: malformed container\n";
    let all = format!("{lost}{no}whole.lsm: accepted, 12 pictures\n");
    assert_eq!(lsm(&folder, &["check", "lost.lsm", "no.lsm", "whole.lsm"]), said(1, &all, ""));
    let missing = "lsm: missing: No such file or directory (os error 2)\n";
    assert_eq!(lsm(&folder, &["check", "missing", "no.lsm"]), said(2, no, missing));
    assert_eq!(fed(&folder, &["check", "-"], &fs::read(folder.0.join("no.lsm")).unwrap()).out, no.replace("no.lsm", "standard input"));
}

#[test]
fn what_is_no_file_is_said() {
    let folder = Folder::new("no-file");
    fs::create_dir(folder.0.join("sub")).unwrap();
    let _listening = UnixListener::bind(folder.0.join("socket")).unwrap();
    let cases = [
        ("sub", "a folder, not a file"),
        ("/dev/zero", "a device, not a file"),
        ("socket", "a socket, not a file"),
        ("missing", "No such file or directory (os error 2)"),
        ("sub/x/y", "No such file or directory (os error 2)"),
    ];
    for (name, what) in cases {
        let want = format!("lsm: {name}: {what}\n");
        for words in [&["list", name][..], &["check", name], &["picture", name, "-o", "o.raw"], &["export", name, "-o", "o"]] {
            assert_eq!(lsm(&folder, words).error(), (2, want.as_str()));
        }
    }
    assert_eq!(folder.names(), ["socket", "sub"]);
    let said = shell(&folder, "\"$LSM\" list - < sub");
    assert_eq!(said.error(), (2, "lsm: standard input: Is a directory (os error 21)\n"));
}

#[test]
fn a_file_that_may_not_be_read_is_said() {
    let folder = Folder::new("unreadable");
    let file = folder.put("f.lsm", b"II*");
    fs::set_permissions(&file, fs::Permissions::from_mode(0o000)).unwrap();
    if fs::File::open(&file).is_ok() {
        eprintln!("left out: whoever runs this may read everything");
        return;
    }
    assert_eq!(lsm(&folder, &["list", "f.lsm"]).error(), (2, "lsm: f.lsm: Permission denied (os error 13)\n"));
}

#[test]
fn names_need_not_be_utf8() {
    let folder = Folder::new("latin1");
    let name = OsStr::from_bytes(b"H\xf6hle.lsm");
    fs::write(folder.0.join(name), Made::default().bytes()).unwrap();
    let o = tool(&folder, &["check".as_ref(), name]).output().unwrap();
    assert_eq!((o.status.code(), o.stdout.as_slice()), (Some(0), &b"H\xf6hle.lsm: accepted, 1 picture\n"[..]));
    let o = tool(&folder, &["list".as_ref(), name, name]).output().unwrap();
    assert!(o.stdout.starts_with(b"file H\xf6hle.lsm\naccepted\n"));
    let words: [&OsStr; 4] = ["export".as_ref(), name, "-o".as_ref(), OsStr::from_bytes(b"\xff")];
    assert_eq!(lsm(&folder, &words).status, 0);
    assert!(folder.0.join(OsStr::from_bytes(b"\xff/H\xf6hle_s0_t0_c0_z0.png")).is_file());
    assert_eq!(lsm(&folder, &["list", "--", "-o"]).error(), (2, "lsm: -o: No such file or directory (os error 2)\n"));
}
