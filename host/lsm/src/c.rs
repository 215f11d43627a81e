//! The C functions, with slices in place of pointer and length. Each returns 0 where it accepts, otherwise a refusal's number, and
//! overwrites the whole of `answer`.

extern "C" {
    fn lsm_open(file: *const u8, file_len: usize, table: *mut usize, table_len: usize, answer: *mut usize) -> usize;
    fn lsm_channel(
        file: *const u8,
        file_len: usize,
        description: *const usize,
        channel: usize,
        name: *mut u8,
        name_len: usize,
        answer: *mut usize,
    ) -> usize;
    #[cfg(not(lsm_lacks_pictures))]
    fn lsm_plane(
        file: *const u8,
        file_len: usize,
        description: *const usize,
        table: *const usize,
        table_len: usize,
        scene: usize,
        t: usize,
        c: usize,
        z: usize,
        out: *mut u8,
        out_len: usize,
        answer: *mut usize,
    ) -> usize;
    #[cfg(not(lsm_lacks_pictures))]
    fn lsm_region(
        file: *const u8,
        file_len: usize,
        description: *const usize,
        table: *const usize,
        table_len: usize,
        scene: usize,
        t: usize,
        c: usize,
        z: usize,
        x: usize,
        y: usize,
        w: usize,
        h: usize,
        out: *mut u8,
        out_len: usize,
        answer: *mut usize,
    ) -> usize;
}

/// How many words a description has (`LSM_DESCRIPTION_WORDS`). Later versions add words at the end only.
pub const DESCRIPTION_WORDS: usize = 19;
/// How many words `open` answers.
pub const OPEN_WORDS: usize = 3 + DESCRIPTION_WORDS;
/// How many words `channel` answers.
pub const CHANNEL_WORDS: usize = 8;
/// How many words `plane` and `region` answer.
pub const PICTURE_WORDS: usize = 5;

/// Whether the library has plane and region.
pub const PICTURES: bool = cfg!(not(lsm_lacks_pictures));

/// `lsm_open`.
pub fn open(file: &[u8], table: &mut [usize], answer: &mut [usize; OPEN_WORDS]) -> usize {
    // SAFETY: every pointer goes with its slice's length or has the array's fixed length, and lives through the call.
    unsafe { lsm_open(file.as_ptr(), file.len(), table.as_mut_ptr(), table.len(), answer.as_mut_ptr()) }
}

/// `lsm_channel`.
pub fn channel(file: &[u8], description: &[usize; DESCRIPTION_WORDS], channel: usize, name: &mut [u8], answer: &mut [usize; CHANNEL_WORDS]) -> usize {
    // SAFETY: as in `open`.
    unsafe {
        lsm_channel(
            file.as_ptr(),
            file.len(),
            description.as_ptr(),
            channel,
            name.as_mut_ptr(),
            name.len(),
            answer.as_mut_ptr(),
        )
    }
}

/// `lsm_plane`; `at` is scene, t, c, z.
#[cfg(not(lsm_lacks_pictures))]
pub fn plane(
    file: &[u8],
    description: &[usize; DESCRIPTION_WORDS],
    table: &[usize],
    at: [usize; 4],
    out: &mut [u8],
    answer: &mut [usize; PICTURE_WORDS],
) -> usize {
    // SAFETY: as in `open`.
    unsafe {
        lsm_plane(
            file.as_ptr(),
            file.len(),
            description.as_ptr(),
            table.as_ptr(),
            table.len(),
            at[0],
            at[1],
            at[2],
            at[3],
            out.as_mut_ptr(),
            out.len(),
            answer.as_mut_ptr(),
        )
    }
}

/// `lsm_region`; `at` is scene, t, c, z and `rect` is x, y, w, h.
#[cfg(not(lsm_lacks_pictures))]
pub fn region(
    file: &[u8],
    description: &[usize; DESCRIPTION_WORDS],
    table: &[usize],
    at: [usize; 4],
    rect: [usize; 4],
    out: &mut [u8],
    answer: &mut [usize; PICTURE_WORDS],
) -> usize {
    // SAFETY: as in `open`.
    unsafe {
        lsm_region(
            file.as_ptr(),
            file.len(),
            description.as_ptr(),
            table.as_ptr(),
            table.len(),
            at[0],
            at[1],
            at[2],
            at[3],
            rect[0],
            rect[1],
            rect[2],
            rect[3],
            out.as_mut_ptr(),
            out.len(),
            answer.as_mut_ptr(),
        )
    }
}

/// A library without plane is never asked for one: look at [`PICTURES`] first.
#[cfg(lsm_lacks_pictures)]
pub fn plane(_: &[u8], _: &[usize; DESCRIPTION_WORDS], _: &[usize], _: [usize; 4], _: &mut [u8], _: &mut [usize; PICTURE_WORDS]) -> usize {
    panic!("the library has no plane")
}

/// As `plane`.
#[cfg(lsm_lacks_pictures)]
pub fn region(_: &[u8], _: &[usize; DESCRIPTION_WORDS], _: &[usize], _: [usize; 4], _: [usize; 4], _: &mut [u8], _: &mut [usize; PICTURE_WORDS]) -> usize {
    panic!("the library has no region")
}
