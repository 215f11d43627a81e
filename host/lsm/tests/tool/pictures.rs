// `lsm picture`: what is written is read back by small readers of the tests.

use crate::decoded::decoded;
use crate::made::{Kind, Made};
use crate::run::{fed, lsm, said, Folder};

pub const KINDS: [Kind; 4] = [Kind::U8, Kind::U16, Kind::I16, Kind::F32];

pub fn endings(kind: Kind) -> &'static [&'static str] {
    match kind {
        Kind::U8 | Kind::U16 => &["raw", "npy", "pgm", "png"],
        Kind::I16 => &["raw", "npy"],
        Kind::F32 => &["raw", "npy", "pfm"],
    }
}

// Every picture of m.lsm to every ending that holds it, whole or in a rectangle, beside the samples that the maker says.
fn read_back(folder: &Folder, made: &Made, rect: Option<[usize; 4]>) {
    folder.put("m.lsm", &made.bytes());
    let at = [made.scenes - 1, made.times - 1, made.channels - 1, made.depth - 1];
    let [x, y, w, h] = rect.unwrap_or([0, 0, made.width, made.height]);
    let [s, t, c, z] = at.map(|n| n.to_string());
    for ending in endings(made.kind) {
        let out = format!("o.{ending}");
        let mut words = vec!["picture", "m.lsm", "--scene", &s, "--t", &t, "--c", &c, "--z", &z, "-o", &out];
        let text = format!("--rect={x},{y},{w},{h}");
        if rect.is_some() {
            words.push(&text);
        }
        assert_eq!(lsm(folder, &words), said(0, "", ""), "{made:?}");
        let grey = decoded(ending, &folder.get(&out), made.kind.size(), (w, h));
        assert!(grey == (w, h, made.picture(at, [x, y, w, h])), "{ending} of {made:?}, {rect:?}");
    }
}

#[test]
fn every_kind_order_and_layout_reads_back() {
    let folder = Folder::new("layouts");
    for kind in KINDS {
        for n in 0..8 {
            let (big_endian, interleaved, anywhere) = (n & 1 == 1, n & 2 == 2, n & 4 == 4);
            let strips = if anywhere { 3 } else { 2 };
            let made = Made { kind, big_endian, interleaved, anywhere, strips, width: 13, height: 9, channels: 3, ..Made::default() };
            let made = Made { depth: 2, times: 2, scenes: 2, ..made };
            read_back(&folder, &made, None);
            read_back(&folder, &made, Some([2, 3, 5, 4]));
            read_back(&folder, &made, Some([12, 8, 1, 1]));
        }
    }
}

// A picture is read in pieces of at most 1 MiB: rows of several pieces, and a row that is longer than one.
#[test]
fn large_pictures_read_back() {
    let folder = Folder::new("large");
    for kind in [Kind::U16, Kind::F32] {
        let height = 2600 / kind.size();
        let made = Made { kind, big_endian: true, width: 1000, height, strips: 23, ..Made::default() };
        read_back(&folder, &made, None);
        read_back(&folder, &made, Some([1, 1, 999, height - 1]));
        read_back(&folder, &Made { kind, width: 2_400_000 / kind.size(), height: 2, ..Made::default() }, None);
    }
}

// A stored block of PNG takes 65,535 bytes: rows that end just there, before and behind.
#[test]
fn blocks_of_png_end_anywhere() {
    let folder = Folder::new("blocks");
    for width in [65533, 65534, 65535, 131_069] {
        for height in [1, 2] {
            read_back(&folder, &Made { width, height, ..Made::default() }, None);
        }
    }
}

#[test]
fn endings_in_capitals_and_standard_input() {
    let folder = Folder::new("capitals");
    let made = Made::default();
    assert_eq!(fed(&folder, &["picture", "-", "--output", "O.PGM"], &made.bytes()), said(0, "", ""));
    assert_eq!(decoded("pgm", &folder.get("O.PGM"), 1, (0, 0)), (7, 5, made.picture([0; 4], [0, 0, 7, 5])));
}

#[test]
fn an_output_that_is_there_is_replaced() {
    let folder = Folder::new("replaced");
    folder.put("m.lsm", &Made::default().bytes());
    folder.put("o.raw", &[1; 1000]);
    assert_eq!(lsm(&folder, &["picture", "m.lsm", "-o", "o.raw"]).status, 0);
    assert_eq!(folder.get("o.raw").len(), 35);
}

#[test]
fn empty_rectangles() {
    let folder = Folder::new("empty");
    folder.put("m.lsm", &Made::default().bytes());
    for rect in ["3,2,0,3", "7,5,0,0"] {
        assert_eq!(lsm(&folder, &["picture", "m.lsm", "--rect", rect, "-o", "o.raw"]), said(0, "", ""));
        assert_eq!(folder.get("o.raw"), b"");
        assert_eq!(lsm(&folder, &["picture", "m.lsm", "--rect", rect, "-o", "o.npy"]), said(0, "", ""));
        assert_eq!(folder.get("o.npy").len(), 128);
        let said = lsm(&folder, &["picture", "m.lsm", "--rect", rect, "-o", "o.png"]);
        assert_eq!(said.error(), (2, "lsm: o.png: .png can't hold a rectangle of no samples; these can: .raw .npy\n"));
    }
}

#[test]
fn a_kind_that_does_not_fit_is_said() {
    let folder = Folder::new("fit");
    let fit = [(Kind::U8, ".raw .pgm .npy .png"), (Kind::U16, ".raw .pgm .npy .png"), (Kind::I16, ".raw .npy"), (Kind::F32, ".raw .npy .pfm")];
    for (kind, can) in fit {
        folder.put("m.lsm", &Made { kind, ..Made::default() }.bytes());
        for ending in ["raw", "pgm", "npy", "png", "pfm"].iter().filter(|e| !endings(kind).contains(e)) {
            let why = format!(".{ending} can't hold {kind:?} samples; these can: {can}");
            let place = format!("o.{ending}");
            assert_eq!(lsm(&folder, &["picture", "m.lsm", "-o", &place]).error(), (2, format!("lsm: {place}: {why}\n").as_str()));
            let want = format!("lsm: {why}; see `lsm export --help`\n");
            assert_eq!(lsm(&folder, &["export", "m.lsm", "-o", "d", "--as", ending]).error(), (2, want.as_str()));
        }
    }
    assert_eq!(folder.names(), ["m.lsm"]);
}

#[test]
fn refusals_of_pictures() {
    let folder = Folder::new("refusals");
    folder.put("m.lsm", &Made { depth: 2, lost: Some(1), ..Made::default() }.bytes());
    let decode = "refused with 2: the bytes can't be the picture that they announce";
    let there = "counted from 0, the file has scene 0, t 0, c 0, z 0 to 1";
    let passed = "the rectangle passes the picture, which has 7 columns and 5 rows";
    let cases: [(&[&str], &str); 7] = [
        (&["--scene", "1"], &format!("scene 1, t 0, c 0, z 0: refused with 5: no scene 1 among 1; {there}")),
        (&["--t", "1"], &format!("scene 0, t 1, c 0, z 0: refused with 6: nothing at scene 0, t 1, c 0, z 0; {there}")),
        (&["--z", "1"], &format!("scene 0, t 0, c 0, z 1: {decode}")),
        (&["--z", "1", "--rect", "0,0,7,5"], &format!("scene 0, t 0, c 0, z 1: {decode}")),
        (&["--rect", "0,0,8,1"], &format!("scene 0, t 0, c 0, z 0: {decode}; {passed}")),
        (&["--rect", "0,4,1,2"], &format!("scene 0, t 0, c 0, z 0: {decode}; {passed}")),
        (&["--rect", "1,0,18446744073709551615,1"], &format!("scene 0, t 0, c 0, z 0: {decode}; {passed}")),
    ];
    for (words, what) in cases {
        let words = [&["picture", "m.lsm", "-o", "o.raw"], words].concat();
        assert_eq!(lsm(&folder, &words).error(), (1, format!("lsm: m.lsm: {what}\n").as_str()));
    }
    folder.put("no.lsm", b"no");
    for words in [["picture", "no.lsm", "-o", "o.raw"], ["export", "no.lsm", "-o", "d"]] {
        assert_eq!(lsm(&folder, &words).error(), (1, "lsm: no.lsm: refused with 1: malformed container\n"));
    }
    assert_eq!(folder.names(), ["m.lsm", "no.lsm"]);
}
