//! The command `lsm`: what a file holds, its pictures, and whether all of them can be read. `lsm --help` says how it is called.

#[cfg(all(lsm_static, not(lsm_lacks_pictures)))]
mod tool;

use std::process::ExitCode;

#[cfg(all(lsm_static, not(lsm_lacks_pictures)))]
fn main() -> ExitCode {
    ExitCode::from(tool::main())
}

#[cfg(not(all(lsm_static, not(lsm_lacks_pictures))))]
fn main() -> ExitCode {
    use std::io::Write;
    let what = if cfg!(lsm_static) {
        "lsm: it was built with a library that lacks plane and region"
    } else {
        "lsm: it was built without the library: LSM_STATIC_DIR names the folder of liblsm_c.a, which tools/staticlib makes"
    };
    let _ = writeln!(std::io::stderr(), "{what}");
    ExitCode::from(2)
}
