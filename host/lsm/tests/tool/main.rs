// The command `lsm`, run as a user runs it. These tests link the library, and are left out where LSM_STATIC_DIR isn't set.
#![cfg(all(lsm_static, not(lsm_lacks_pictures)))]

#[path = "../made/mod.rs"]
mod made;

mod decoded;
mod json;
mod run;

mod above;
mod export;
mod inputs;
mod list;
mod outputs;
mod pictures;
mod words;
