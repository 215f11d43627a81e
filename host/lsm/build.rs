// Links the static library of the folder that LSM_STATIC_DIR names. LSM_STATIC_NAME is the library's name, `lsm_c` where it isn't
// set. Without LSM_STATIC_DIR the crate compiles and nothing is linked: the tests that need the library are then left out, and the command `lsm`
// and the example first_row say what is missing and end with status 2.
use std::env;
use std::path::Path;

fn main() {
    println!("cargo:rerun-if-env-changed=LSM_STATIC_DIR");
    println!("cargo:rerun-if-env-changed=LSM_STATIC_NAME");
    let Ok(folder) = env::var("LSM_STATIC_DIR") else {
        return;
    };
    let name = env::var("LSM_STATIC_NAME").unwrap_or_else(|_| "lsm_c".to_string());
    let file = Path::new(&folder).join(format!("lib{name}.a"));
    println!("cargo:rerun-if-changed={}", file.display());
    let bytes = std::fs::read(&file).unwrap_or_else(|e| panic!("{}: {e}", file.display()));
    println!("cargo:rustc-link-search=native={folder}");
    println!("cargo:rustc-link-lib=static={name}");
    println!("cargo:rustc-cfg=lsm_static");
    // A library that has opening and channel lookup alone still links: plane and region are then left out.
    let names = index(&bytes);
    if !["lsm_plane", "lsm_region"].iter().all(|want| names.iter().any(|n| n == want.as_bytes())) {
        println!("cargo:rustc-cfg=lsm_lacks_pictures");
    }
}

// The names in an archive's index: its first member, `/`, has a count, as many places of four bytes, then the names with a zero byte
// after each.
fn index(archive: &[u8]) -> Vec<Vec<u8>> {
    let Some(rest) = archive.strip_prefix(b"!<arch>\n/ ") else {
        panic!("an archive without an index: make one with ranlib");
    };
    let size: usize = String::from_utf8_lossy(&rest[46..56]).trim().parse().expect("the index's size");
    let body = &rest[58..58 + size];
    let count = u32::from_be_bytes([body[0], body[1], body[2], body[3]]) as usize;
    body[4 + 4 * count..].split(|&b| b == 0).map(<[u8]>::to_vec).collect()
}
