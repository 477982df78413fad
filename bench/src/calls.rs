//! Lists and counts within this process: the library's calls beside the other ways. Nothing ends a call, so a way is called only
//! where it came to an end as a program.
use crate::cases::Case;
use crate::measure::medians;
use crate::placings::{Counted, Placings};
use crate::sheet::Sheet;
use crate::table::WAYS;
use crate::{free, plain, reduced};
use bixtogan::Count;
use differential::{Refused, LAST};
use std::collections::BTreeSet;
use std::hint::black_box;
use std::time::Duration;

/// Which ways are called.
pub type Called = [bool; WAYS];

type List = fn(&[u8], &mut Placings) -> Result<(), Refused>;

const LISTS: [List; WAYS] = [ours, recursion, on_reduced, fragments];
const COUNTS: [fn(&[u8]) -> u64; WAYS] = [our_count, recursion_count, reduced_count, chart_count];

fn wrong(case: &Case, what: &str) -> String {
    format!("{}: {what}", case.name)
}

/// All readings by one call of the library.
fn ours(bytes: &[u8], placings: &mut Placings) -> Result<(), Refused> {
    placings.fill(bytes);
    Ok(())
}

fn recursion(bytes: &[u8], placings: &mut Placings) -> Result<(), Refused> {
    placings.clear();
    plain::list(&Sheet::read(bytes)?, placings);
    Ok(())
}

fn on_reduced(bytes: &[u8], placings: &mut Placings) -> Result<(), Refused> {
    placings.clear();
    reduced::list(&Sheet::read(bytes)?, placings);
    Ok(())
}

fn fragments(bytes: &[u8], placings: &mut Placings) -> Result<(), Refused> {
    placings.clear();
    free::list(&Sheet::read(bytes)?, placings);
    Ok(())
}

fn placings(bytes: &[u8], nodes: usize) -> BTreeSet<&[u8]> {
    bytes.chunks(nodes).collect()
}

fn sheet_of(case: &Case) -> Result<Sheet, String> {
    Sheet::read(&case.sheet).map_err(|_| wrong(case, "not well-formed"))
}

/// Whether all list and count alike; how many readings are listed.
pub fn agree(case: &Case, called: Called) -> Result<u64, String> {
    let bytes = &case.sheet[..];
    let counts: Vec<u64> = (0..WAYS).filter(|&way| called[way]).map(|way| COUNTS[way](bytes)).collect();
    let count = counts.first().copied().unwrap_or_default();
    if counts.iter().any(|&other| other != count) {
        return Err(wrong(case, &format!("counts {counts:?}")));
    }
    let sheet = sheet_of(case)?;
    let mut rooms = [(); WAYS].map(|()| Placings::new(&sheet));
    for way in (0..WAYS).filter(|&way| called[way]) {
        LISTS[way](bytes, &mut rooms[way]).map_err(|_| wrong(case, "not well-formed"))?;
    }
    let lists: [Option<&[u8]>; WAYS] = std::array::from_fn(|way| called[way].then_some(rooms[way].written()));
    let listed = count.min(LAST);
    if lists.iter().flatten().any(|list| list.len() != listed as usize * sheet.nodes) {
        return Err(wrong(case, "lists of other lengths"));
    }
    let [in_order @ .., free] = lists;
    let in_order: Vec<&[u8]> = in_order.into_iter().flatten().collect();
    if in_order.windows(2).any(|pair| pair[0] != pair[1]) {
        return Err(wrong(case, "a recursion lists otherwise"));
    }
    let whole = in_order.first().copied().zip(free).filter(|_| count <= LAST);
    if whole.is_some_and(|(ours, free)| placings(ours, sheet.nodes) != placings(free, sheet.nodes)) {
        return Err(wrong(case, "free fragments list otherwise"));
    }
    Ok(listed)
}

/// The times of the lists. All read the sheet's bytes and write placings into a buffer that is there already.
pub fn lists(case: &Case, repeat: usize, called: Called) -> Result<[Option<Duration>; WAYS], String> {
    let sheet = sheet_of(case)?;
    let mut rooms = [(); WAYS].map(|()| Placings::new(&sheet));
    Ok(medians(repeat, called, |way| LISTS[way](black_box(&case.sheet), &mut rooms[way])))
}

pub fn our_count(sheet: &[u8]) -> u64 {
    match bixtogan::count(sheet) {
        Ok(Count::Exactly(count)) => count,
        Ok(Count::More) => LAST + 1,
        Err(_) => 0,
    }
}

fn recursion_count(bytes: &[u8]) -> u64 {
    let mut counted = Counted::default();
    if let Ok(sheet) = Sheet::read(bytes) {
        plain::list(&sheet, &mut counted);
    }
    counted.0
}

fn reduced_count(bytes: &[u8]) -> u64 {
    let mut counted = Counted::default();
    if let Ok(sheet) = Sheet::read(bytes) {
        reduced::list(&sheet, &mut counted);
    }
    counted.0
}

fn chart_count(bytes: &[u8]) -> u64 {
    Sheet::read(bytes).map_or(0, |sheet| free::count(&sheet).min(LAST + 1))
}

/// The times of the counts.
pub fn counts(case: &Case, repeat: usize, called: Called) -> [Option<Duration>; WAYS] {
    medians(repeat, called, |way| COUNTS[way](black_box(&case.sheet)))
}
