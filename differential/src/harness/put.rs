//! What each function of the library puts into the number lent to it: the answer's value, or after a refusal what was there.
use super::calls::{Caller, Compared};
use super::known::{Placed, Total};
use super::lent::Lent;
use super::raw::{self, Told};
use super::Difference;
use differential::{cycle, Refused, DRAWING, LAST, TERM};

fn told<T>(wanted: Result<T, Refused>, before: T) -> Told<T> {
    match wanted {
        Ok(value) => (0, value),
        Err(refused) => (refused, before),
    }
}

/// Each function once, lent enough or not.
pub fn numbers(caller: &mut Caller) -> Compared {
    nodes(caller)?;
    count(caller)?;
    placed(caller)?;
    lengths(caller)?;
    checks(caller)
}

fn nodes(caller: &mut Caller) -> Compared {
    let before = caller.random.word();
    let wanted = told(caller.known.nodes().map(|nodes| nodes as u64), before);
    let given = raw::nodes(caller.sheet.lend(), before);
    caller.told(given == wanted, "bixtogan_nodes, the number put", wanted, given)
}

fn count(caller: &mut Caller) -> Compared {
    let few = caller.known.facts.as_ref().map_or(true, |facts| facts.few().is_some());
    let wanted = match caller.known.count() {
        Some(wanted) if few => wanted,
        _ => return Ok(()),
    };
    let before = caller.random.word();
    let wanted = wanted.map(|total| if let Total::Exactly(count) = total { count } else { LAST + 1 });
    let wanted = told(wanted, before);
    let given = raw::count(caller.sheet.lend(), before);
    caller.told(given == wanted, "bixtogan_count, the number put", wanted, given)
}

/// Some room, which is enough every other time.
fn some_room(caller: &mut Caller, enough: usize) -> usize {
    if caller.random.once_in(2) {
        enough
    } else {
        caller.random.below(enough + 8)
    }
}

fn placed(caller: &mut Caller) -> Compared {
    let room = some_room(caller, caller.known.room());
    let place = caller.random.below(3) as u64;
    let before = caller.random.word();
    if let Some(wanted) = caller.known.reading(place, room) {
        let mut lent = Lent::new(caller.random, room);
        let given = raw::reading(caller.sheet.lend(), place, lent.lend_mut(), before);
        let pairs = wanted_pairs(caller, &wanted, &lent, given.1 .1, before)?;
        let wanted = match wanted {
            Placed::Done(_) => (0, (place + 1, pairs)),
            Placed::Cycle => (9, (place, pairs)),
            Placed::Refused(refused) => (refused, (place, pairs)),
        };
        caller.told(given == wanted, "bixtogan_reading, place and number put", wanted, given)?;
    }
    if let Some(wanted) = caller.known.fill(place, room) {
        let mut lent = Lent::new(caller.random, room);
        let given = raw::readings(caller.sheet.lend(), place, lent.lend_mut(), before);
        let pairs = wanted_pairs(caller, &wanted, &lent, given.1 .1, before)?;
        let wanted = match wanted {
            Placed::Done(placings) => (0, (place + 2 * placings.len() as u64 / caller.known.room() as u64, pairs)),
            Placed::Cycle => (9, (place, pairs)),
            Placed::Refused(refused) => (refused, (place, pairs)),
        };
        caller.told(given == wanted, "bixtogan_readings, place and number put", wanted, given)?;
    }
    if let Some(wanted) = caller.known.configuration(room) {
        let mut lent = Lent::new(caller.random, room);
        let given = raw::configuration(caller.sheet.lend(), lent.lend_mut(), before);
        let pairs = wanted_pairs(caller, &wanted, &lent, given.1, before)?;
        let wanted = match wanted {
            Placed::Done(_) => (0, pairs),
            Placed::Cycle => (9, pairs),
            Placed::Refused(refused) => (refused, pairs),
        };
        caller.told(given == wanted, "bixtogan_configuration, number put", wanted, given)?;
    }
    Ok(())
}

/// The number of pairs that is wanted: where a cycle is, the one given, whose pairs must be one; else what was there before.
fn wanted_pairs(caller: &mut Caller, wanted: &Placed, lent: &Lent, pairs: u64, before: u64) -> Result<u64, Difference> {
    let (Placed::Cycle, Ok(facts)) = (wanted, &caller.known.facts) else {
        return Ok(before);
    };
    let bytes = usize::try_from(pairs).ok().and_then(|pairs| lent.lend().get(..pairs.checked_mul(2)?));
    let right = bytes.is_some_and(|bytes| cycle::check(&facts.graph, bytes));
    caller.told(right, "the cycle of no reading, number of pairs put", "that of a hypernormal cycle", pairs)?;
    Ok(pairs)
}

/// The length that a call puts which is lent a buffer of so many bytes.
fn length(
    caller: &mut Caller,
    name: &str,
    room: usize,
    wanted: Result<usize, Refused>,
    call: impl Fn(&[u8], &mut [u8], u64) -> Told<u64>,
) -> Compared {
    let before = caller.random.word();
    let wanted = told(wanted.map(|length| length as u64), before);
    let mut lent = Lent::new(caller.random, room);
    let given = call(caller.sheet.lend(), lent.lend_mut(), before);
    caller.told(given == wanted, &format!("{name}, number put"), wanted, given)
}

fn lengths(caller: &mut Caller) -> Compared {
    let number = caller.random.below(3) as u64;
    for number in [1, number] {
        let room = some_room(caller, DRAWING);
        if let Some(wanted) = caller.known.drawing(number, room) {
            let drawing = |sheet: &[u8], out: &mut [u8], before| raw::drawing(sheet, number, out, before);
            length(caller, "bixtogan_drawing", room, wanted.map(|text| text.len()), drawing)?;
        }
    }
    let room = some_room(caller, TERM);
    if let Some(wanted) = caller.known.term(number, room) {
        let term = |sheet: &[u8], out: &mut [u8], before| raw::term(sheet, number, out, before);
        length(caller, "bixtogan_term", room, wanted.map(|text| text.len()), term)?;
    }
    let room = some_room(caller, caller.known.bytes.len());
    length(caller, "bixtogan_tidy", room, caller.known.tidy(room).map(<[u8]>::len), raw::tidy)?;
    let room = some_room(caller, caller.known.labelled.as_ref().map_or(30, |labelled| labelled.plain.bytes.len()));
    length(caller, "bixtogan_labelled", room, caller.known.labelled(room).map(<[u8]>::len), raw::labelled)?;
    fragments(caller)
}

/// The room is in bytes here, and need not be whole records.
fn fragments(caller: &mut Caller) -> Compared {
    let before = caller.random.word();
    let enough = caller.known.facts.as_ref().map_or(30, |facts| 3 * facts.table.len());
    for room in [enough.saturating_sub(2), enough.saturating_sub(1), enough, enough + 1, enough + 2] {
        let wanted = caller.known.table(room / 3);
        let mut lent = Lent::new(caller.random, room);
        let given = raw::fragments(caller.sheet.lend(), lent.lend_mut(), before);
        let written = wanted.map_or(Vec::new(), |table| table.concat());
        let wanted = told(wanted.map(|table| table.len() as u64), before);
        let right = given == wanted && lent.holds(&written);
        caller.told(right, &format!("bixtogan_fragments, number put, {room} bytes lent"), wanted, given)?;
    }
    Ok(())
}

fn checks(caller: &mut Caller) -> Compared {
    let before = caller.random.byte();
    let room = some_room(caller, caller.known.room());
    let bytes: Vec<u8> = (0..room).map(|_| caller.random.byte()).collect();
    let wanted = told(caller.known.check_cycle(&bytes).map(u8::from), before);
    let given = raw::check_cycle(caller.sheet.lend(), &bytes, before);
    caller.told(given == wanted, "bixtogan_check_cycle, answer put", wanted, given)?;
    let mut placing = bytes;
    if let (Ok(facts), true) = (&caller.known.facts, caller.random.once_in(2)) {
        placing = facts.readings.first().cloned().unwrap_or(placing);
    }
    let bits = |answers: differential::placing::Answers| {
        u8::from(answers.solved) + 2 * u8::from(answers.configuration) + 4 * u8::from(answers.reading)
    };
    let wanted = told(caller.known.check_placing(&placing).map(bits), before);
    let given = raw::check_placing(caller.sheet.lend(), &placing, before);
    caller.told(given == wanted, "bixtogan_check_placing, answers put", wanted, given)
}
