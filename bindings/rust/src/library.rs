//! The static library's functions (`include/bixtogan.h`), each with its lent memory as slices. The first of a result is the
//! refusal's number, 0 for an answer.
use crate::{foreign, Fragment};

// Each call hands over slices and references that are valid and, where they can be written, borrowed by this call alone. That is
// all that the library asks of its caller.

pub fn nodes(sheet: &[u8]) -> (u8, u64) {
    let mut nodes = 0;
    let number = unsafe { foreign::bixtogan_nodes(sheet.as_ptr(), sheet.len(), &mut nodes) };
    (number, nodes)
}

pub fn count(sheet: &[u8]) -> (u8, u64) {
    let mut readings = 0;
    let number = unsafe { foreign::bixtogan_count(sheet.as_ptr(), sheet.len(), &mut readings) };
    (number, readings)
}

pub fn reading(sheet: &[u8], place: &mut u64, out: &mut [u8]) -> (u8, u64) {
    let mut pairs = 0;
    let number = unsafe {
        foreign::bixtogan_reading(sheet.as_ptr(), sheet.len(), place, out.as_mut_ptr(), out.len(), &mut pairs)
    };
    (number, pairs)
}

pub fn readings(sheet: &[u8], place: &mut u64, out: &mut [u8]) -> (u8, u64) {
    let mut pairs = 0;
    let number = unsafe {
        foreign::bixtogan_readings(sheet.as_ptr(), sheet.len(), place, out.as_mut_ptr(), out.len(), &mut pairs)
    };
    (number, pairs)
}

pub fn configuration(sheet: &[u8], out: &mut [u8]) -> (u8, u64) {
    let mut pairs = 0;
    let number = unsafe {
        foreign::bixtogan_configuration(sheet.as_ptr(), sheet.len(), out.as_mut_ptr(), out.len(), &mut pairs)
    };
    (number, pairs)
}

pub fn drawing(sheet: &[u8], number: u64, out: &mut [u8]) -> (u8, u64) {
    let mut length = 0;
    let refused = unsafe {
        foreign::bixtogan_drawing(sheet.as_ptr(), sheet.len(), number, out.as_mut_ptr(), out.len(), &mut length)
    };
    (refused, length)
}

pub fn tidy(sheet: &[u8], out: &mut [u8]) -> (u8, u64) {
    let mut length = 0;
    let number =
        unsafe { foreign::bixtogan_tidy(sheet.as_ptr(), sheet.len(), out.as_mut_ptr(), out.len(), &mut length) };
    (number, length)
}

pub fn labelled(sheet: &[u8], out: &mut [u8]) -> (u8, u64) {
    let mut length = 0;
    let number =
        unsafe { foreign::bixtogan_labelled(sheet.as_ptr(), sheet.len(), out.as_mut_ptr(), out.len(), &mut length) };
    (number, length)
}

pub fn term(sheet: &[u8], number: u64, out: &mut [u8]) -> (u8, u64) {
    let mut length = 0;
    let refused = unsafe {
        foreign::bixtogan_term(sheet.as_ptr(), sheet.len(), number, out.as_mut_ptr(), out.len(), &mut length)
    };
    (refused, length)
}

pub fn fragments(sheet: &[u8], table: &mut [Fragment]) -> (u8, u64) {
    let mut records = 0;
    // A record is three bytes with no gap, and every byte is a record's field.
    let room = std::mem::size_of_val(table);
    let number = unsafe {
        foreign::bixtogan_fragments(sheet.as_ptr(), sheet.len(), table.as_mut_ptr().cast(), room, &mut records)
    };
    (number, records)
}

pub fn check_cycle(sheet: &[u8], cycle: &[u8]) -> (u8, u8) {
    let mut yes = 0;
    let number =
        unsafe { foreign::bixtogan_check_cycle(sheet.as_ptr(), sheet.len(), cycle.as_ptr(), cycle.len(), &mut yes) };
    (number, yes)
}

pub fn check_placing(sheet: &[u8], placing: &[u8]) -> (u8, u8) {
    let mut answers = 0;
    let number = unsafe {
        foreign::bixtogan_check_placing(sheet.as_ptr(), sheet.len(), placing.as_ptr(), placing.len(), &mut answers)
    };
    (number, answers)
}
