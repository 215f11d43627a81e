// The words behind `lsm`: mistakes in them, and help.

use crate::run::{lsm, said, Folder};

// What is wrong with the words, which nothing is read for.
#[test]
fn mistakes_in_the_words() {
    let folder = Folder::new("words");
    let cases: [(&[&str], &str); 19] = [
        (&["show"], "there is no command `show`; see `lsm --help`"),
        (&["list"], "no file was named; see `lsm list --help`"),
        (&["list", "--all", "f"], "there is no option --all; see `lsm list --help`"),
        (&["list", "--json=1", "f"], "--json takes no value; see `lsm list --help`"),
        (&["check", "-o", "x", "f"], "there is no option -o; see `lsm check --help`"),
        (&["picture", "f"], "-o OUT is wanted: where the output goes; see `lsm picture --help`"),
        (&["picture", "f", "-o"], "--output wants a value; see `lsm picture --help`"),
        (&["picture", "f", "g", "-o", "o.raw"], "one file is wanted, and 2 were named; see `lsm picture --help`"),
        (&["picture", "f", "-o", "o.raw", "--t", "-1"], "--t wants a number from 0 to 2^64 - 1, not `-1`; see `lsm picture --help`"),
        (&["picture", "f", "-o", "o.raw", "--t="], "--t wants a number from 0 to 2^64 - 1, not ``; see `lsm picture --help`"),
        (
            &["picture", "f", "-o", "o.raw", "--z", "18446744073709551616"],
            "--z wants a number from 0 to 2^64 - 1, not `18446744073709551616`; see `lsm picture --help`",
        ),
        (&["picture", "f", "-o", "o.raw", "--c", "1", "--c=2"], "--c was given twice; see `lsm picture --help`"),
        (&["picture", "f", "-o", "o.raw", "--rect", "1,2,3"], "--rect wants four numbers, X,Y,W,H, not `1,2,3`; see `lsm picture --help`"),
        (&["picture", "f", "-o", "o.raw", "--rect", "1,2,3,+4"], "--rect wants four numbers, X,Y,W,H, not `1,2,3,+4`; see `lsm picture --help`"),
        (&["picture", "f", "-o", "o.tif"], "o.tif: an unknown ending; these are known: .raw .pgm .npy .png .pfm; see `lsm picture --help`"),
        (&["picture", "f", "-o", "raw"], "raw: an unknown ending; these are known: .raw .pgm .npy .png .pfm; see `lsm picture --help`"),
        (&["export", "f", "-o", "d", "--as", "tif"], "tif: an unknown ending; these are known: .raw .pgm .npy .png .pfm; see `lsm export --help`"),
        (&["export", "f"], "-o DIR is wanted: where the output goes; see `lsm export --help`"),
        (&["export", "-o", "d"], "no file was named; see `lsm export --help`"),
    ];
    for (words, what) in cases {
        assert_eq!(lsm(&folder, words).error(), (2, format!("lsm: {what}\n").as_str()), "{words:?}");
    }
    assert_eq!(folder.names(), [""; 0]);
}

#[test]
fn help_is_printed() {
    let folder = Folder::new("help");
    let asked = lsm(&folder, &["--help"]);
    assert!(asked.status == 0 && asked.err.is_empty() && asked.out.starts_with("usage: lsm COMMAND"));
    for words in [&["-h"][..], &["help"]] {
        assert_eq!(lsm(&folder, words), asked);
    }
    assert_eq!(lsm::<&str>(&folder, &[]), said(2, "", &asked.out));
    for command in ["list", "picture", "export", "check"] {
        let help = lsm(&folder, &[command, "--help"]);
        assert!(help.status == 0 && help.err.is_empty() && help.out.starts_with(&format!("usage: lsm {command} ")));
        assert!(asked.out.contains(&format!("  lsm {command} ")));
        assert_eq!(lsm(&folder, &["help", command]), help);
        assert_eq!(lsm(&folder, &[command, "f", "-h"]), help);
    }
}
