//! From a file to a picture: opens an LSM file, says what it holds, and prints the first row of its first picture, as
//! host/example/first_row.c does. From the repository's folder:
//!
//!     tools/staticlib
//!     export LSM_STATIC_DIR=$PWD/target/staticlib
//!     cargo run --offline -q --manifest-path host/lsm/Cargo.toml --target-dir target/host --example first_row files/g.lsm

#[cfg(lsm_static)]
fn print_first_row(file: &[u8]) -> Result<(), lsm::Refusal> {
    // no room: 7 says how many words the strip table takes
    let words = match lsm::open(file, &mut []) {
        Err(lsm::Refusal::TooShort { needed }) => needed,
        other => return other.map(|_| ()),
    };
    let mut table = vec![0; words];
    let d = lsm::open(file, &mut table)?.description;
    println!("dims {} {} {} {} {}\nkind {}", d.t, d.c, d.z, d.y, d.x, d.kind as usize);

    let mut name = [0; 3072];
    let channel = lsm::channel(file, &d, 0, &mut name)?;
    println!("colour {}", channel.colour.map_or("-".into(), |[r, g, b]| format!("{r:02x}{g:02x}{b:02x}")));
    let text = |n| String::from_utf8_lossy(&name[..n]).replace(|c: char| c.is_ascii_control(), "");
    println!("name {}", channel.name.map_or("-".into(), |n| format!("={}", text(n))));

    // row 0 of scene 0, t 0, channel 0, z 0: its size follows from the description
    let row = lsm::Rect { x: 0, y: 0, w: d.x, h: 1 };
    let mut samples = vec![0; d.x * d.kind.size()];
    lsm::region(file, &d, &table, 0, 0, 0, 0, row, &mut samples)?;
    print!("row 0:");
    for s in samples.chunks_exact(d.kind.size()).take(8) {
        match d.kind {
            lsm::Kind::U8 => print!(" {}", s[0]),
            lsm::Kind::U16 => print!(" {}", u16::from_le_bytes([s[0], s[1]])),
            lsm::Kind::I16 => print!(" {}", i16::from_le_bytes([s[0], s[1]])),
            lsm::Kind::F32 => print!(" {}", f32::from_le_bytes([s[0], s[1], s[2], s[3]])),
        }
    }
    println!();
    Ok(())
}

#[cfg(lsm_static)]
fn main() {
    let path = std::env::args().nth(1).expect("usage: first_row FILE");
    let file = std::fs::read(&path).unwrap_or_else(|e| panic!("{path}: {e}"));
    if let Err(r) = print_first_row(&file) {
        println!("refused {}: {r}", r.number());
        std::process::exit(1);
    }
}

#[cfg(not(lsm_static))]
fn main() {
    eprintln!("first_row: it was built without the library: LSM_STATIC_DIR names the folder of liblsm_c.a, which tools/staticlib makes");
    std::process::exit(2);
}
