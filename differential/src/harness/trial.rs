//! All calls on one sheet.
use super::calls::{Caller, Compared};
use super::known::{Facts, Known};
use super::tally::Tally;
use super::{checks, damage, mislabelled, put, terms, Difference};
use differential::labelling::Labelled;
use differential::random::Random;
use differential::{DRAWING, LAST};

/// How many readings of a sheet are worked out: few most times, hundreds or thousands now and then.
fn wanted(random: &mut Random) -> usize {
    match random.below(40) {
        0 => 3000,
        1..=3 => 300,
        _ => 24,
    }
}

/// How many of them are asked for one by one, since each call walks from the first.
const IN_TURN: u64 = 200;

/// The sheet's facts; a difference where the ways to solve it part.
pub fn known(bytes: &[u8], wanted: usize) -> Result<Known, Difference> {
    Known::new(bytes, wanted).map_err(|why| Difference {
        sheet: bytes.to_vec(),
        call: "none: the second implementation is at odds with itself".to_string(),
        wanted: "one answer".to_string(),
        given: why,
    })
}

/// All calls on any bytes, damaged or not; and on the plain sheet that is handed back of a labelled one.
pub fn try_any(random: &mut Random, bytes: &[u8]) -> Result<Tally, Difference> {
    let known = known(bytes, wanted(random))?;
    let mut tally = try_known(random, &known)?;
    if let Ok(labelled) = &known.labelled {
        tally += try_known(random, &labelled.plain)?;
    }
    Ok(tally)
}

fn try_known(random: &mut Random, known: &Known) -> Result<Tally, Difference> {
    let mut caller = Caller::new(known, random);
    put::numbers(&mut caller)?;
    labelled(&mut caller)?;
    terms::terms(&mut caller)?;
    match &known.facts {
        Err(_) => refused(&mut caller)?,
        Ok(facts) => {
            writing(&mut caller, facts)?;
            in_turn(&mut caller, facts)?;
            several_in_turn(&mut caller, facts)?;
            numbers(&mut caller, facts)?;
            checks::placings(&mut caller, facts)?;
            checks::all_placings(&mut caller, facts)?;
            checks::cycles(&mut caller, facts)?;
        }
    }
    Ok(caller.tally)
}

/// All calls on damaged forms of the sheet.
pub fn try_damaged(random: &mut Random, bytes: &[u8], times: usize) -> Result<Tally, Difference> {
    let mut tally = Tally::default();
    for _ in 0..times {
        let damaged = if random.once_in(8) { damage::noise(random) } else { damage::damaged(random, bytes) };
        tally += try_any(random, &damaged)?;
    }
    Ok(tally)
}

/// All calls on damaged forms of the labelled sheet.
pub fn try_mislabelled(random: &mut Random, sheet: &Labelled, times: usize) -> Result<Tally, Difference> {
    let mut tally = Tally::default();
    for _ in 0..times {
        let damaged = mislabelled::damaged(random, sheet);
        tally += try_any(random, &damaged)?;
    }
    Ok(tally)
}

/// Buffer lengths around a limit, and some others.
pub fn lengths(random: &mut Random, limit: usize) -> [usize; 6] {
    [0, limit.saturating_sub(1), limit, limit + 1, random.below(limit + 1), limit + random.below(300)]
}

/// A sheet that isn't well-formed: each call gives its number, whatever is lent.
fn refused(caller: &mut Caller) -> Compared {
    caller.nodes()?;
    caller.count()?;
    for room in [0, caller.random.below(40), 256] {
        let place = caller.random.word();
        caller.reading(place, room)?;
        caller.fill(place, room)?;
        caller.configuration(room)?;
        caller.tidy(room)?;
        caller.fragments(room)?;
        let bytes: Vec<u8> = (0..room).map(|_| caller.random.byte()).collect();
        caller.check_cycle(&bytes)?;
        caller.check_placing(&bytes)?;
    }
    for room in lengths(caller.random, DRAWING) {
        caller.drawing(1, room)?;
    }
    Ok(())
}

/// The call for labelled sheets, with buffers around what is handed back, or of any length.
fn labelled(caller: &mut Caller) -> Compared {
    let handed_back = caller.known.labelled.as_ref().map_or(caller.known, |labelled| &labelled.plain);
    let length = handed_back.bytes.len();
    for room in lengths(caller.random, length) {
        caller.labelled(room)?;
    }
    Ok(())
}

/// Calls that write, with buffers around each limit.
fn writing(caller: &mut Caller, facts: &Facts) -> Compared {
    for room in lengths(caller.random, 2 * facts.nodes()) {
        caller.reading(0, room)?;
        caller.fill(0, room)?;
        caller.configuration(room)?;
    }
    for room in lengths(caller.random, DRAWING) {
        caller.drawing(1, room)?;
        caller.drawing(0, room)?;
    }
    for room in lengths(caller.random, facts.tidy.len()) {
        caller.tidy(room)?;
    }
    for records in lengths(caller.random, facts.table.len()) {
        caller.fragments(records)?;
    }
    Ok(())
}

/// Some room for readings: too little, just enough for one call, or more.
fn some_room(random: &mut Random, enough: usize) -> usize {
    match random.below(4) {
        0 => random.below(enough),
        1 => enough + random.below(64),
        _ => enough,
    }
}

/// A list of reading calls, some of them lent too little, past the end of the readings where they are few.
fn in_turn(caller: &mut Caller, facts: &Facts) -> Compared {
    let listed = IN_TURN.min(facts.readings.len() as u64);
    let mut place = 0;
    let mut after_the_end = 0;
    while place < listed || after_the_end < 3 {
        let room = some_room(caller.random, 2 * facts.nodes());
        place = caller.reading(place, room)?;
        after_the_end += u64::from(place >= listed);
    }
    Ok(())
}

/// The same by calls that hand out several readings each, and all at once.
fn several_in_turn(caller: &mut Caller, facts: &Facts) -> Compared {
    let nodes = facts.nodes();
    let listed = facts.readings.len();
    let mut place = 0;
    let mut stays = 0;
    // A place stays after the last reading, where too little is lent, and where no call is made since what it would hand out
    // was not worked out.
    while stays < 4 {
        let readings = caller.random.below(listed / 4 + 8);
        let room = some_room(caller.random, 2 * nodes) + readings * nodes;
        let to = caller.fill(place, room)?;
        stays = if to == place { stays + 1 } else { 0 };
        place = to;
    }
    for readings in [listed.saturating_sub(1), listed, listed + 1] {
        caller.fill(0, readings * nodes)?;
        caller.fill(0, readings * nodes + nodes - 1)?;
    }
    for place in [listed as u64, LAST - 1, LAST, u64::MAX] {
        if facts.few().is_some() || place >= LAST {
            let room = some_room(caller.random, 4 * nodes);
            caller.fill(place, room)?;
        }
    }
    Ok(())
}

/// Forged numbers of readings, and those around the count.
pub fn forged(random: &mut Random, facts: &Facts) -> Vec<u64> {
    let mut forged = vec![LAST, LAST + 1, u64::MAX, u64::MAX - 1, 1 << 32, (1 << 32) + 1, 1 << 63, random.word()];
    if let Some(count) = facts.few() {
        forged.extend([count.saturating_sub(1), count, count + 1, count + 2, LAST - 1]);
    }
    forged.push(random.below(facts.readings.len() + 1) as u64);
    forged
}

/// The numbers of nodes and of readings, and forged places and numbers.
fn numbers(caller: &mut Caller, facts: &Facts) -> Compared {
    let enough = 2 * facts.nodes();
    caller.nodes()?;
    if facts.few().is_some() || caller.random.once_in(16) {
        caller.count()?;
    }
    for number in forged(caller.random, facts) {
        caller.reading(number, enough)?;
        caller.drawing(number, DRAWING)?;
    }
    let small = caller.random.below(enough);
    caller.reading(u64::MAX, small)?;
    for number in 1..=facts.readings.len().min(8) {
        caller.drawing(number as u64, DRAWING)?;
    }
    Ok(())
}
