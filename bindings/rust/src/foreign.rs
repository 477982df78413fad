//! The static library's functions as C has them, declared once for this crate and for the tests that go past it. Nothing but the
//! tests checks these declarations against the library.
#![allow(missing_docs)]

extern "C" {
    pub fn bixtogan_nodes(sheet: *const u8, length: usize, nodes: &mut u64) -> u8;
    pub fn bixtogan_count(sheet: *const u8, length: usize, readings: &mut u64) -> u8;
    pub fn bixtogan_reading(
        sheet: *const u8,
        length: usize,
        place: &mut u64,
        out: *mut u8,
        room: usize,
        pairs: &mut u64,
    ) -> u8;
    pub fn bixtogan_readings(
        sheet: *const u8,
        length: usize,
        place: &mut u64,
        out: *mut u8,
        room: usize,
        pairs: &mut u64,
    ) -> u8;
    pub fn bixtogan_configuration(sheet: *const u8, length: usize, out: *mut u8, room: usize, pairs: &mut u64) -> u8;
    pub fn bixtogan_drawing(
        sheet: *const u8,
        length: usize,
        number: u64,
        out: *mut u8,
        room: usize,
        drawn: &mut u64,
    ) -> u8;
    pub fn bixtogan_tidy(sheet: *const u8, length: usize, out: *mut u8, room: usize, tidied: &mut u64) -> u8;
    pub fn bixtogan_labelled(sheet: *const u8, length: usize, out: *mut u8, room: usize, tidied: &mut u64) -> u8;
    pub fn bixtogan_term(
        sheet: *const u8,
        length: usize,
        number: u64,
        out: *mut u8,
        room: usize,
        written: &mut u64,
    ) -> u8;
    pub fn bixtogan_fragments(sheet: *const u8, length: usize, out: *mut u8, room: usize, records: &mut u64) -> u8;
    pub fn bixtogan_check_cycle(sheet: *const u8, length: usize, cycle: *const u8, bytes: usize, yes: &mut u8) -> u8;
    pub fn bixtogan_check_placing(
        sheet: *const u8,
        length: usize,
        placing: *const u8,
        bytes: usize,
        answers: &mut u8,
    ) -> u8;
}
