// The stand-in as a static library with the C interface, so that the way through C can be tried before the library is there.
#[allow(dead_code)] // the faults of a faulty port
mod negative;
#[allow(dead_code)] // as of negative
mod pixels;
mod standin;
mod twin;
#[allow(dead_code)] // as of negative
mod uneven;
mod walk;

use standin::{CHANNEL_WORDS, DESCRIPTION_WORDS, OPEN_WORDS, PICTURE_WORDS, StandIn};
use std::cell::RefCell;
use std::slice::{from_raw_parts, from_raw_parts_mut};

thread_local! {
    static PORT: RefCell<StandIn> = RefCell::new(StandIn::default());
}

/// # Safety
/// Every pointer with its length must be a slice.
#[no_mangle]
pub unsafe extern "C" fn lsm_open(
    file: *const u8,
    file_len: usize,
    table: *mut usize,
    table_len: usize,
    answer: *mut usize,
) -> usize {
    let (file, table) = (from_raw_parts(file, file_len), from_raw_parts_mut(table, table_len));
    PORT.with_borrow_mut(|p| p.open(file, table, &mut *(answer as *mut [usize; OPEN_WORDS])))
}

/// # Safety
/// As `lsm_open`.
#[no_mangle]
pub unsafe extern "C" fn lsm_channel(
    file: *const u8,
    file_len: usize,
    description: *const usize,
    channel: usize,
    name: *mut u8,
    name_len: usize,
    answer: *mut usize,
) -> usize {
    let (file, name) = (from_raw_parts(file, file_len), from_raw_parts_mut(name, name_len));
    let description = &*(description as *const [usize; DESCRIPTION_WORDS]);
    PORT.with_borrow_mut(|p| p.channel(file, description, channel, name, &mut *(answer as *mut [usize; CHANNEL_WORDS])))
}

/// # Safety
/// As `lsm_open`.
#[no_mangle]
pub unsafe extern "C" fn lsm_plane(
    file: *const u8,
    file_len: usize,
    description: *const usize,
    table: *const usize,
    table_len: usize,
    scene: usize,
    t: usize,
    c: usize,
    z: usize,
    out: *mut u8,
    out_len: usize,
    answer: *mut usize,
) -> usize {
    let (file, table, out) =
        (from_raw_parts(file, file_len), from_raw_parts(table, table_len), from_raw_parts_mut(out, out_len));
    let description = &*(description as *const [usize; DESCRIPTION_WORDS]);
    let answer = &mut *(answer as *mut [usize; PICTURE_WORDS]);
    PORT.with_borrow_mut(|p| p.picture(file, description, table, [scene, t, c, z], None, out, answer))
}

/// # Safety
/// As `lsm_open`.
#[no_mangle]
pub unsafe extern "C" fn lsm_region(
    file: *const u8,
    file_len: usize,
    description: *const usize,
    table: *const usize,
    table_len: usize,
    scene: usize,
    t: usize,
    c: usize,
    z: usize,
    x: usize,
    y: usize,
    w: usize,
    h: usize,
    out: *mut u8,
    out_len: usize,
    answer: *mut usize,
) -> usize {
    let (file, table, out) =
        (from_raw_parts(file, file_len), from_raw_parts(table, table_len), from_raw_parts_mut(out, out_len));
    let description = &*(description as *const [usize; DESCRIPTION_WORDS]);
    let answer = &mut *(answer as *mut [usize; PICTURE_WORDS]);
    PORT.with_borrow_mut(|p| p.picture(file, description, table, [scene, t, c, z], Some([x, y, w, h]), out, answer))
}
