//! The proved library through its C interface.

/// `caisson_answer` of the header.
#[repr(C)]
#[derive(Clone, Copy, Debug, PartialEq, Eq)]
pub struct Answer {
    pub number: u32,
    pub place: usize,
    pub count: usize,
}

/// `caisson_which` of the header.
#[repr(C)]
struct Which {
    second: u32,
    len: usize,
}

extern "C" {
    fn caisson_check(image: *const u8, image_len: usize) -> Answer;
    fn caisson_format() -> u32;
    fn caisson_file(image: *const u8, image_len: usize, out: *mut u8, out_len: usize) -> Answer;
    fn caisson_gates_check(table: *const u8, table_len: usize) -> Answer;
    fn caisson_prune(image: *const u8, image_len: usize, out: *mut u8, out_len: usize) -> Answer;
    fn caisson_raise(image: *const u8, image_len: usize, out: *mut u8, out_len: usize) -> Answer;
    fn caisson_version() -> u32;
    fn caisson_which_earlier(
        first: *const u8,
        first_len: usize,
        second: *const u8,
        second_len: usize,
    ) -> Which;
}

/// The number of the version: 3006000 is 3.6.0.
pub fn version() -> u32 {
    // Sound: it is lent nothing, and answers a constant.
    unsafe { caisson_version() }
}

/// Of the images that it reads.
pub fn format() -> u32 {
    // Sound as above.
    unsafe { caisson_format() }
}

pub fn check(image: &[u8]) -> Answer {
    // Sound: a slice is readable for its length, which is all that the call asks for.
    unsafe { caisson_check(image.as_ptr(), image.len()) }
}

pub fn gates_check(table: &[u8]) -> Answer {
    // Sound as above.
    unsafe { caisson_gates_check(table.as_ptr(), table.len()) }
}

/// Into an area that has to be as long as the image.
pub fn raise(image: &[u8], out: &mut [u8]) -> Answer {
    // Sound: the one slice is readable and the other writable for its length, and they are apart.
    unsafe { caisson_raise(image.as_ptr(), image.len(), out.as_mut_ptr(), out.len()) }
}

/// Into an area that has to be as long as the result; one as long as the image always is.
pub fn prune(image: &[u8], out: &mut [u8]) -> Answer {
    // Sound as above.
    unsafe { caisson_prune(image.as_ptr(), image.len(), out.as_mut_ptr(), out.len()) }
}

/// Into an area that has to be as long as the image.
pub fn file(image: &[u8], out: &mut [u8]) -> Answer {
    // Sound as above.
    unsafe { caisson_file(image.as_ptr(), image.len(), out.as_mut_ptr(), out.len()) }
}

/// The earlier of two images as it was lent, the first of equal ones; an empty part of the first where either is
/// refused. As `caisson_earlier` of the header makes it.
pub fn earlier<'a>(first: &'a [u8], second: &'a [u8]) -> &'a [u8] {
    // Sound: both slices are readable for their lengths, and nothing is written.
    let which = unsafe {
        caisson_which_earlier(first.as_ptr(), first.len(), second.as_ptr(), second.len())
    };
    match which.second {
        0 => &first[..which.len],
        _ => &second[..which.len],
    }
}
