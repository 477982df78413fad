//! The library's functions without the bindings: what they put into the numbers lent to them, which the bindings hide after a
//! refusal. Each takes what the number holds before, and hands back what was returned and what it holds then.
use bixtogan::foreign;

/// What a call returned, and the number lent to it.
pub type Told<T> = (u8, T);

// Every pointer comes from a slice or a reference that lives as long as the call, with its length.

pub fn nodes(sheet: &[u8], mut nodes: u64) -> Told<u64> {
    let returned = unsafe { foreign::bixtogan_nodes(sheet.as_ptr(), sheet.len(), &mut nodes) };
    (returned, nodes)
}

pub fn count(sheet: &[u8], mut readings: u64) -> Told<u64> {
    let returned = unsafe { foreign::bixtogan_count(sheet.as_ptr(), sheet.len(), &mut readings) };
    (returned, readings)
}

pub fn reading(sheet: &[u8], mut place: u64, out: &mut [u8], mut pairs: u64) -> Told<(u64, u64)> {
    let (at, room) = (out.as_mut_ptr(), out.len());
    let returned = unsafe { foreign::bixtogan_reading(sheet.as_ptr(), sheet.len(), &mut place, at, room, &mut pairs) };
    (returned, (place, pairs))
}

pub fn readings(sheet: &[u8], mut place: u64, out: &mut [u8], mut pairs: u64) -> Told<(u64, u64)> {
    let (at, room) = (out.as_mut_ptr(), out.len());
    let returned = unsafe { foreign::bixtogan_readings(sheet.as_ptr(), sheet.len(), &mut place, at, room, &mut pairs) };
    (returned, (place, pairs))
}

pub fn configuration(sheet: &[u8], out: &mut [u8], mut pairs: u64) -> Told<u64> {
    let (at, room) = (out.as_mut_ptr(), out.len());
    let returned = unsafe { foreign::bixtogan_configuration(sheet.as_ptr(), sheet.len(), at, room, &mut pairs) };
    (returned, pairs)
}

pub fn drawing(sheet: &[u8], number: u64, out: &mut [u8], mut length: u64) -> Told<u64> {
    let (at, room) = (out.as_mut_ptr(), out.len());
    let returned = unsafe { foreign::bixtogan_drawing(sheet.as_ptr(), sheet.len(), number, at, room, &mut length) };
    (returned, length)
}

pub fn term(sheet: &[u8], number: u64, out: &mut [u8], mut length: u64) -> Told<u64> {
    let (at, room) = (out.as_mut_ptr(), out.len());
    let returned = unsafe { foreign::bixtogan_term(sheet.as_ptr(), sheet.len(), number, at, room, &mut length) };
    (returned, length)
}

pub fn tidy(sheet: &[u8], out: &mut [u8], mut length: u64) -> Told<u64> {
    let (at, room) = (out.as_mut_ptr(), out.len());
    let returned = unsafe { foreign::bixtogan_tidy(sheet.as_ptr(), sheet.len(), at, room, &mut length) };
    (returned, length)
}

pub fn labelled(sheet: &[u8], out: &mut [u8], mut length: u64) -> Told<u64> {
    let (at, room) = (out.as_mut_ptr(), out.len());
    let returned = unsafe { foreign::bixtogan_labelled(sheet.as_ptr(), sheet.len(), at, room, &mut length) };
    (returned, length)
}

/// With room in bytes, so that lengths between whole records are tried as well.
pub fn fragments(sheet: &[u8], out: &mut [u8], mut records: u64) -> Told<u64> {
    let (at, room) = (out.as_mut_ptr(), out.len());
    let returned = unsafe { foreign::bixtogan_fragments(sheet.as_ptr(), sheet.len(), at, room, &mut records) };
    (returned, records)
}

pub fn check_cycle(sheet: &[u8], cycle: &[u8], mut yes: u8) -> Told<u8> {
    let (at, bytes) = (cycle.as_ptr(), cycle.len());
    let returned = unsafe { foreign::bixtogan_check_cycle(sheet.as_ptr(), sheet.len(), at, bytes, &mut yes) };
    (returned, yes)
}

pub fn check_placing(sheet: &[u8], placing: &[u8], mut answers: u8) -> Told<u8> {
    let (at, bytes) = (placing.as_ptr(), placing.len());
    let returned = unsafe { foreign::bixtogan_check_placing(sheet.as_ptr(), sheet.len(), at, bytes, &mut answers) };
    (returned, answers)
}
