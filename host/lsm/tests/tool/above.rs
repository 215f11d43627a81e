// Pictures above the limit of 4 GiB, which are read by their rows.

use std::fs;

use crate::decoded::decoded;
use crate::made::Made;
use crate::run::{lsm, said, Folder};

// A row more than 4 GiB. Every strip names the bytes of the first one, so row y is row 0.
#[test]
fn a_picture_above_the_limit_is_read_by_its_rows() {
    let folder = Folder::new("above");
    let made = Made { width: 65536, height: 65537, strips: 65537, shared: true, ..Made::default() };
    folder.put("m.lsm", &made.bytes());
    assert_eq!(lsm(&folder, &["picture", "m.lsm", "--rect", "65530,65535,6,2", "-o", "o.pgm"]), said(0, "", ""));
    let row = made.picture([0; 4], [65530, 0, 6, 1]);
    assert_eq!(decoded("pgm", &folder.get("o.pgm"), 1, (0, 0)), (6, 2, [&row[..], &row[..]].concat()));
    // of several strips that aren't whole rows the library gives no rows of such a picture; the refusal has its size
    folder.put("u.lsm", &Made { anywhere: true, strips: 65536, ..made }.bytes());
    let want = "lsm: u.lsm: scene 0, t 0, c 0, z 0: refused with 4: 4295032832 bytes are above the limit of 4294967296\n";
    assert_eq!(lsm(&folder, &["picture", "u.lsm", "--rect", "0,0,1,1", "-o", "u.pgm"]).error(), (1, want));
    assert_eq!(lsm(&folder, &["picture", "u.lsm", "-o", "u.raw"]).error(), (1, want));
    assert_eq!(folder.names(), ["m.lsm", "o.pgm", "u.lsm"]);
}

#[test]
fn check_reads_a_picture_above_the_limit() {
    let folder = Folder::new("check-above");
    folder.put("m.lsm", &Made { width: 65536, height: 65537, strips: 65537, shared: true, ..Made::default() }.bytes());
    assert_eq!(lsm(&folder, &["check", "m.lsm"]), said(0, "m.lsm: accepted, 1 picture\n", ""));
}

// 4 GiB are written, so it runs only where LSM_LARGE is set.
#[test]
fn a_picture_above_the_limit_is_exported() {
    if std::env::var_os("LSM_LARGE").is_none() {
        eprintln!("left out: LSM_LARGE isn't set");
        return;
    }
    let folder = Folder::new("export-above");
    let made = Made { width: 65536, height: 65537, strips: 65537, shared: true, ..Made::default() };
    folder.put("m.lsm", &made.bytes());
    for counts in ["1 written, 0 kept", "0 written, 1 kept"] {
        let want = format!("m.lsm: 1 picture: {counts}, 0 refused\n");
        assert_eq!(lsm(&folder, &["export", "m.lsm", "-o", ".", "--as", "raw"]), said(0, &want, ""));
    }
    assert_eq!(fs::metadata(folder.0.join("m_s0_t0_c0_z0.raw")).unwrap().len(), 4_295_032_832);
}
