//! The proved library through its C interface.

use crate::answer::{Answer, Which};
use crate::trace::Record;
use std::ptr;

extern "C" {
    fn caisson_check(image: *const u8, image_len: usize) -> Answer;
    fn caisson_registers_length(image: *const u8, image_len: usize) -> Answer;
    fn caisson_targets_length(image: *const u8, image_len: usize) -> Answer;
}

extern "C" {
    fn caisson_reset(
        image: *const u8,
        image_len: usize,
        registers: *mut u8,
        registers_len: usize,
        targets: *mut u8,
        targets_len: usize,
    ) -> Answer;
    fn caisson_write_port(
        image: *const u8,
        image_len: usize,
        registers: *mut u8,
        registers_len: usize,
        reg: u32,
        value: u32,
    ) -> Answer;
    fn caisson_run(
        image: *const u8,
        image_len: usize,
        registers: *mut u8,
        registers_len: usize,
        targets: *mut u8,
        targets_len: usize,
        cycles: u32,
    ) -> Answer;
    fn caisson_raise(image: *const u8, image_len: usize, out: *mut u8, out_len: usize) -> Answer;
    fn caisson_prune(image: *const u8, image_len: usize, out: *mut u8, out_len: usize) -> Answer;
    fn caisson_file(image: *const u8, image_len: usize, out: *mut u8, out_len: usize) -> Answer;
    fn caisson_which_earlier(
        first: *const u8,
        first_len: usize,
        second: *const u8,
        second_len: usize,
    ) -> Which;
}

extern "C" {
    fn caisson_run_journalled(
        image: *const u8,
        image_len: usize,
        registers: *mut u8,
        registers_len: usize,
        targets: *mut u8,
        targets_len: usize,
        journal: *mut u8,
        journal_len: usize,
        cycles: u32,
    ) -> Answer;
    fn caisson_step_back(
        image: *const u8,
        image_len: usize,
        registers: *mut u8,
        registers_len: usize,
        targets: *mut u8,
        targets_len: usize,
        journal: *mut u8,
        journal_len: usize,
        cycles: u32,
    ) -> Answer;
}

extern "C" {
    fn caisson_replay(
        image: *const u8,
        image_len: usize,
        registers: *mut u8,
        registers_len: usize,
        targets: *mut u8,
        targets_len: usize,
        trace: *const Record,
        trace_count: usize,
        cycles: u32,
    ) -> Answer;
}

extern "C" {
    fn caisson_gates_check(table: *const u8, table_len: usize) -> Answer;
    fn caisson_gates_reset(
        table: *const u8,
        table_len: usize,
        flipflops: *mut u8,
        flipflops_len: usize,
    ) -> Answer;
    fn caisson_gates_cycle(
        table: *const u8,
        table_len: usize,
        inputs: *const u8,
        inputs_len: usize,
        flipflops: *mut u8,
        flipflops_len: usize,
    ) -> Answer;
}

// The wrappers are sound because a slice is what each pair of pointer and length asks for:
// readable (areas: writable) for its length, and apart from every other slice.

pub fn check(image: &[u8]) -> Answer {
    unsafe { caisson_check(image.as_ptr(), image.len()) }
}

pub fn registers_length(image: &[u8]) -> Answer {
    unsafe { caisson_registers_length(image.as_ptr(), image.len()) }
}

pub fn targets_length(image: &[u8]) -> Answer {
    unsafe { caisson_targets_length(image.as_ptr(), image.len()) }
}

/// The three answers about the empty image as a C host may lend it: a null pointer with length 0.
pub fn about_null() -> [Answer; 3] {
    unsafe {
        [
            caisson_check(ptr::null(), 0),
            caisson_registers_length(ptr::null(), 0),
            caisson_targets_length(ptr::null(), 0),
        ]
    }
}

pub fn reset(image: &[u8], registers: &mut [u8], targets: &mut [u8]) -> Answer {
    unsafe {
        caisson_reset(
            image.as_ptr(),
            image.len(),
            lend(registers),
            registers.len(),
            lend(targets),
            targets.len(),
        )
    }
}

pub fn write_port(image: &[u8], registers: &mut [u8], register: u32, value: u32) -> Answer {
    unsafe {
        caisson_write_port(
            image.as_ptr(),
            image.len(),
            lend(registers),
            registers.len(),
            register,
            value,
        )
    }
}

pub fn run(image: &[u8], registers: &mut [u8], targets: &mut [u8], cycles: u32) -> Answer {
    unsafe {
        caisson_run(
            image.as_ptr(),
            image.len(),
            lend(registers),
            registers.len(),
            lend(targets),
            targets.len(),
            cycles,
        )
    }
}

pub fn run_journalled(
    image: &[u8],
    registers: &mut [u8],
    targets: &mut [u8],
    journal: &mut [u8],
    cycles: u32,
) -> Answer {
    unsafe {
        caisson_run_journalled(
            image.as_ptr(),
            image.len(),
            lend(registers),
            registers.len(),
            lend(targets),
            targets.len(),
            lend(journal),
            journal.len(),
            cycles,
        )
    }
}

pub fn step_back(
    image: &[u8],
    registers: &mut [u8],
    targets: &mut [u8],
    journal: &mut [u8],
    cycles: u32,
) -> Answer {
    unsafe {
        caisson_step_back(
            image.as_ptr(),
            image.len(),
            lend(registers),
            registers.len(),
            lend(targets),
            targets.len(),
            lend(journal),
            journal.len(),
            cycles,
        )
    }
}

pub fn replay(
    image: &[u8],
    registers: &mut [u8],
    targets: &mut [u8],
    trace: &[Record],
    cycles: u32,
) -> Answer {
    let no_records = trace.is_empty();
    unsafe {
        caisson_replay(
            image.as_ptr(),
            image.len(),
            lend(registers),
            registers.len(),
            lend(targets),
            targets.len(),
            if no_records {
                ptr::null()
            } else {
                trace.as_ptr()
            },
            trace.len(),
            cycles,
        )
    }
}

/// Its answer about the empty image as a C host may lend it, no areas and no trace.
pub fn replay_null() -> Answer {
    let (null, none) = (ptr::null(), ptr::null_mut());
    unsafe { caisson_replay(null, 0, none, 0, none, 0, ptr::null(), 0, 0) }
}

pub fn raise(image: &[u8], out: &mut [u8]) -> Answer {
    unsafe { caisson_raise(image.as_ptr(), image.len(), lend(out), out.len()) }
}

/// Its answer about the empty image as a C host may lend it, and no area.
pub fn raise_null() -> Answer {
    unsafe { caisson_raise(ptr::null(), 0, ptr::null_mut(), 0) }
}

pub fn prune(image: &[u8], out: &mut [u8]) -> Answer {
    unsafe { caisson_prune(image.as_ptr(), image.len(), lend(out), out.len()) }
}

/// Its answer about the empty image as a C host may lend it, and no area.
pub fn prune_null() -> Answer {
    unsafe { caisson_prune(ptr::null(), 0, ptr::null_mut(), 0) }
}

pub fn file(image: &[u8], out: &mut [u8]) -> Answer {
    unsafe { caisson_file(image.as_ptr(), image.len(), lend(out), out.len()) }
}

/// Its answer about the empty image as a C host may lend it, and no area.
pub fn file_null() -> Answer {
    unsafe { caisson_file(ptr::null(), 0, ptr::null_mut(), 0) }
}

/// The two images may be the same slice: both are only read.
pub fn earlier(first: &[u8], second: &[u8]) -> Which {
    unsafe { caisson_which_earlier(first.as_ptr(), first.len(), second.as_ptr(), second.len()) }
}

/// Its answers about empty images as a C host may lend them: both, the first, and the second.
pub fn earlier_null(image: &[u8]) -> [Which; 3] {
    let null = ptr::null();
    unsafe {
        [
            caisson_which_earlier(null, 0, null, 0),
            caisson_which_earlier(null, 0, image.as_ptr(), image.len()),
            caisson_which_earlier(image.as_ptr(), image.len(), null, 0),
        ]
    }
}

pub fn gates_check(table: &[u8]) -> Answer {
    unsafe { caisson_gates_check(table.as_ptr(), table.len()) }
}

pub fn gates_reset(table: &[u8], flipflops: &mut [u8]) -> Answer {
    unsafe {
        caisson_gates_reset(
            table.as_ptr(),
            table.len(),
            lend(flipflops),
            flipflops.len(),
        )
    }
}

pub fn gates_cycle(table: &[u8], inputs: &[u8], flipflops: &mut [u8]) -> Answer {
    let no_inputs = inputs.is_empty();
    unsafe {
        caisson_gates_cycle(
            table.as_ptr(),
            table.len(),
            if no_inputs {
                ptr::null()
            } else {
                inputs.as_ptr()
            },
            inputs.len(),
            lend(flipflops),
            flipflops.len(),
        )
    }
}

/// Their answers about the empty table as a C host may lend it, and no bytes else.
pub fn gates_about_null() -> [Answer; 3] {
    let (null, none) = (ptr::null(), ptr::null_mut());
    unsafe {
        [
            caisson_gates_check(null, 0),
            caisson_gates_reset(null, 0, none, 0),
            caisson_gates_cycle(null, 0, null, 0, none, 0),
        ]
    }
}

/// An empty area is lent as null, the harder case of the two.
fn lend(area: &mut [u8]) -> *mut u8 {
    if area.is_empty() {
        ptr::null_mut()
    } else {
        area.as_mut_ptr()
    }
}
