// `lsm export`: every picture, to a file of its own.

use std::fs;

use crate::decoded::decoded;
use crate::made::{Kind, Made};
use crate::pictures::{endings, KINDS};
use crate::run::{fed, lsm, names, said, Folder};

#[test]
fn export_writes_every_picture() {
    let folder = Folder::new("export");
    let made = Made { kind: Kind::U16, channels: 10, depth: 11, scenes: 2, ..Made::default() };
    folder.put("cave.3.lsm", &made.bytes());
    let want = "cave.3.lsm: 220 pictures: 220 written, 0 kept, 0 refused\n";
    assert_eq!(lsm(&folder, &["export", "cave.3.lsm", "-o", "a/b"]), said(0, want, ""));
    let all = names(&folder.0.join("a/b"));
    assert_eq!((all.len(), all[0].as_str(), all[219].as_str()), (220, "cave.3_s0_t0_c0_z00.png", "cave.3_s1_t0_c9_z10.png"));
    let file = folder.get("a/b/cave.3_s1_t0_c1_z07.png");
    assert!(decoded("png", &file, 2, (0, 0)) == (7, 5, made.picture([1, 0, 1, 7], [0, 0, 7, 5])));
}

#[test]
fn export_has_an_ending_for_every_kind() {
    let folder = Folder::new("export-kinds");
    for (kind, ending) in KINDS.into_iter().zip(["png", "png", "npy", "npy"]) {
        folder.put("m.lsm", &Made { kind, ..Made::default() }.bytes());
        let into = format!("{kind:?}");
        assert_eq!(lsm(&folder, &["export", "m.lsm", "-o", &into]).status, 0);
        assert_eq!(names(&folder.0.join(&into)), [format!("m_s0_t0_c0_z0.{ending}")]);
        for as_ in endings(kind) {
            assert_eq!(lsm(&folder, &["export", "m.lsm", "-o", "all", "--as", &as_.to_uppercase()]).status, 0);
        }
    }
    assert_eq!(names(&folder.0.join("all")).len(), 5);
    assert_eq!(fed(&folder, &["export", "-", "-o", "in"], &Made::default().bytes()).out, "standard input: 1 picture: 1 written, 0 kept, 0 refused\n");
    assert_eq!(names(&folder.0.join("in")), ["stdin_s0_t0_c0_z0.png"]);
}

// Only what is there byte for byte is kept: not a part, not one with a byte more, and not another scan's.
#[test]
fn export_goes_on_where_it_was() {
    let folder = Folder::new("resumed");
    let made = Made { depth: 6, ..Made::default() };
    folder.put("m.lsm", &made.bytes());
    let again = |counts: &str| assert_eq!(lsm(&folder, &["export", "m.lsm", "-o", "d"]), said(0, &format!("m.lsm: 6 pictures: {counts}\n"), ""));
    again("6 written, 0 kept, 0 refused");
    let file = |z: usize| folder.0.join(format!("d/m_s0_t0_c0_z{z}.png"));
    let whole: Vec<_> = (0..6).map(|z| fs::read(file(z)).unwrap()).collect();
    fs::remove_file(file(0)).unwrap();
    fs::write(file(1), &whole[1][..50]).unwrap();
    fs::write(file(2), [&whole[2][..], &[0]].concat()).unwrap();
    fs::write(file(3), &whole[4]).unwrap();
    fs::write(file(4), b"").unwrap();
    again("5 written, 1 kept, 0 refused");
    again("0 written, 6 kept, 0 refused");
    assert!((0..6).all(|z| fs::read(file(z)).unwrap() == whole[z]));
    folder.put("m.lsm", &Made { width: 5, height: 7, ..made }.bytes());
    again("6 written, 0 kept, 0 refused");
}

#[test]
fn export_goes_on_behind_a_refused_picture() {
    let folder = Folder::new("refused");
    folder.put("m.lsm", &Made { depth: 3, lost: Some(1), ..Made::default() }.bytes());
    let want = "lsm: m.lsm: scene 0, t 0, c 0, z 1: refused with 2: the bytes can't be the picture that they announce\n";
    assert_eq!(lsm(&folder, &["export", "m.lsm", "-o", "d"]), said(1, "m.lsm: 3 pictures: 2 written, 0 kept, 1 refused\n", want));
    assert_eq!(names(&folder.0.join("d")), ["m_s0_t0_c0_z0.png", "m_s0_t0_c0_z2.png"]);
    // an output that can't be ends it
    fs::remove_file(folder.0.join("d/m_s0_t0_c0_z2.png")).unwrap();
    fs::create_dir(folder.0.join("d/m_s0_t0_c0_z2.png")).unwrap();
    let stop = "lsm: d/m_s0_t0_c0_z2.png: stands there already, and is no file\n";
    assert_eq!(lsm(&folder, &["export", "m.lsm", "-o", "d"]).error(), (2, format!("{want}{stop}").as_str()));
}
