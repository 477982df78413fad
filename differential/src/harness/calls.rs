//! One function for each call: it is made, and its answer, the place and every lent byte are compared.
use super::difference::{hex, Difference};
use super::known::{Known, Placed, Total};
use super::lent::{Lent, LentTable};
use super::tally::Tally;
use bixtogan::{Count, Place, Refusal, Unplaced};
use differential::placing::Answers;
use differential::random::Random;
use differential::{cycle, Refused};
use std::fmt::Debug;

pub struct Caller<'a> {
    pub known: &'a Known,
    pub random: &'a mut Random,
    pub sheet: Lent,
    pub tally: Tally,
}

pub type Compared = Result<(), Difference>;

/// A call that is lent a sheet and a buffer, and hands back the length of what it wrote.
type Writes = fn(&[u8], &mut [u8]) -> Result<usize, Refusal>;

/// A call that shows the reading with a number as a text.
type Shows = fn(&[u8], u64, &mut [u8]) -> Result<usize, Refusal>;

/// What a call did: its buffer and its answer.
struct Seen<'a> {
    lent: &'a Lent,
    answer: Result<(), Unplaced>,
}

impl<'a> Caller<'a> {
    pub fn new(known: &'a Known, random: &'a mut Random) -> Caller<'a> {
        let sheet = Lent::of(random, &known.bytes);
        Caller { known, random, sheet, tally: Tally::of(known) }
    }

    /// Counts a call, and tells where it went wrong.
    pub fn told(&mut self, right: bool, call: &str, wanted: impl Debug, given: impl Debug) -> Compared {
        self.tally.calls += 1;
        let stray = !self.sheet.is_untouched();
        if right && !stray {
            return Ok(());
        }
        let written = if stray { ", and the sheet was written" } else { "" };
        Err(Difference {
            sheet: self.known.bytes.clone(),
            call: call.to_string(),
            wanted: format!("{wanted:?}"),
            given: format!("{given:?}{written}"),
        })
    }

    pub fn nodes(&mut self) -> Compared {
        let wanted = self.known.nodes();
        let given = bixtogan::nodes(self.sheet.lend()).map_err(Refusal::number);
        self.told(given == wanted, "nodes", wanted, given)
    }

    pub fn count(&mut self) -> Compared {
        let Some(wanted) = self.known.count() else {
            return Ok(());
        };
        let given = bixtogan::count(self.sheet.lend()).map_err(Refusal::number).map(|count| match count {
            Count::Exactly(count) => Total::Exactly(count),
            Count::More => Total::More,
        });
        self.told(given == wanted, "count", wanted, given)
    }

    /// Whether buffer and answer are as wanted. Which cycle is written is open.
    fn is_placed(&self, wanted: &Placed, seen: &Seen) -> bool {
        match (wanted, seen.answer) {
            (Placed::Done(placing), Ok(())) => seen.lent.holds(placing),
            (Placed::Refused(number), Err(Unplaced::Refused(why))) => {
                why.number() == *number && seen.lent.is_untouched()
            }
            (Placed::Cycle, Err(Unplaced::Cycle(pairs))) => {
                match (seen.lent.lend().get(..2 * pairs), &self.known.facts) {
                    (Some(bytes), Ok(facts)) => cycle::check(&facts.graph, bytes) && seen.lent.holds(bytes),
                    _ => false,
                }
            }
            _ => false,
        }
    }

    /// The next reading after a place: the place handed back.
    pub fn reading(&mut self, place: u64, room: usize) -> Result<u64, Difference> {
        let Some(wanted) = self.known.reading(place, room) else {
            return Ok(place);
        };
        let mut lent = Lent::new(self.random, room);
        let mut moved = Place::after(place);
        let answer = moved.next(self.sheet.lend(), lent.lend_mut());
        let to = if matches!(wanted, Placed::Done(_)) { place + 1 } else { place };
        let right = self.is_placed(&wanted, &Seen { lent: &lent, answer }) && moved.number() == to;
        let call = format!("reading after place {place}, {room} bytes lent");
        let given = (answer, moved.number(), hex(lent.lend()));
        self.told(right, &call, (wanted, to), given)?;
        Ok(to)
    }

    /// The readings after a place, as many as fit: the place handed back.
    pub fn fill(&mut self, place: u64, room: usize) -> Result<u64, Difference> {
        let Some(wanted) = self.known.fill(place, room) else {
            return Ok(place);
        };
        let mut lent = Lent::new(self.random, room);
        let mut moved = Place::after(place);
        let given = moved.fill(self.sheet.lend(), lent.lend_mut());
        let readings = match &wanted {
            Placed::Done(placings) => 2 * placings.len() / self.known.room(),
            _ => 0,
        };
        let to = place + readings as u64;
        let answer = given.map(|_| ());
        let right = self.is_placed(&wanted, &Seen { lent: &lent, answer })
            && given.map_or(true, |given| given == readings)
            && moved.number() == to;
        let call = format!("readings after place {place}, {room} bytes lent");
        if right {
            // These lists are long, and put into words only where they differ.
            self.told(true, &call, (), ())?;
        } else {
            self.told(false, &call, (wanted, to), (given, moved.number(), hex(lent.lend())))?;
        }
        Ok(to)
    }

    /// The configuration; what was written.
    pub fn configuration(&mut self, room: usize) -> Result<Vec<u8>, Difference> {
        let Some(wanted) = self.known.configuration(room) else {
            return Ok(Vec::new());
        };
        let mut lent = Lent::new(self.random, room);
        let answer = bixtogan::configuration(self.sheet.lend(), lent.lend_mut());
        let right = self.is_placed(&wanted, &Seen { lent: &lent, answer });
        let call = format!("configuration, {room} bytes lent");
        self.told(right, &call, wanted, (answer, hex(lent.lend())))?;
        Ok(match answer {
            Ok(()) => lent.lend()[..room / 2].to_vec(),
            Err(Unplaced::Cycle(pairs)) => lent.lend()[..2 * pairs].to_vec(),
            Err(_) => Vec::new(),
        })
    }

    /// Whether a call that hands back a length wrote as many bytes, and those.
    fn is_written(lent: &Lent, wanted: Result<&[u8], Refused>, given: Result<usize, Refused>) -> bool {
        match (wanted, given) {
            (Ok(bytes), Ok(length)) => bytes.len() == length && lent.holds(bytes),
            (Err(number), Err(refused)) => number == refused && lent.is_untouched(),
            _ => false,
        }
    }

    /// A call that writes a text; what was written.
    fn text(
        &mut self,
        name: &str,
        number: u64,
        room: usize,
        wanted: Result<String, Refused>,
        call: Shows,
    ) -> Result<Vec<u8>, Difference> {
        let mut lent = Lent::new(self.random, room);
        let given = call(self.sheet.lend(), number, lent.lend_mut()).map_err(Refusal::number);
        let bytes = wanted.as_ref().map(|text| text.as_bytes()).map_err(|&refused| refused);
        let right = Self::is_written(&lent, bytes, given);
        let text = lent.lend()[..given.unwrap_or(0).min(room)].to_vec();
        let call = format!("{name} of reading {number}, {room} bytes lent");
        self.told(right, &call, wanted, (given, String::from_utf8_lossy(&text)))?;
        Ok(text)
    }

    pub fn drawing(&mut self, number: u64, room: usize) -> Compared {
        match self.known.drawing(number, room) {
            Some(wanted) => self.text("drawing", number, room, wanted, bixtogan::drawing).map(|_| ()),
            None => Ok(()),
        }
    }

    /// The term; what was written.
    pub fn term(&mut self, number: u64, room: usize) -> Result<Vec<u8>, Difference> {
        match self.known.term(number, room) {
            Some(wanted) => self.text("term", number, room, wanted, bixtogan::term),
            None => Ok(Vec::new()),
        }
    }

    /// A call that writes a sheet.
    fn sheet(&mut self, name: &str, room: usize, wanted: Result<&[u8], Refused>, call: Writes) -> Compared {
        let mut lent = Lent::new(self.random, room);
        let given = call(self.sheet.lend(), lent.lend_mut()).map_err(Refusal::number);
        let right = Self::is_written(&lent, wanted, given);
        self.told(right, &format!("{name}, {room} bytes lent"), wanted.map(hex), (given, hex(lent.lend())))
    }

    pub fn tidy(&mut self, room: usize) -> Compared {
        self.sheet("tidy", room, self.known.tidy(room), bixtogan::tidy)
    }

    pub fn labelled(&mut self, room: usize) -> Compared {
        self.sheet("labelled", room, self.known.labelled(room), bixtogan::labelled)
    }

    pub fn fragments(&mut self, records: usize) -> Compared {
        let wanted = self.known.table(records);
        let mut lent = LentTable::new(self.random, records);
        let given = bixtogan::fragments(self.sheet.lend(), lent.lend_mut()).map_err(Refusal::number);
        let right = match (wanted, given) {
            (Ok(table), Ok(length)) => table.len() == length && lent.holds(table),
            (Err(number), Err(refused)) => number == refused && lent.holds(&[]),
            _ => false,
        };
        let call = format!("fragments, {records} records lent");
        self.told(right, &call, wanted, (given, lent.lend_mut()))
    }

    pub fn check_cycle(&mut self, bytes: &[u8]) -> Compared {
        let wanted = self.known.check_cycle(bytes);
        let lent = Lent::of(self.random, bytes);
        let given = bixtogan::check_cycle(self.sheet.lend(), lent.lend()).map_err(Refusal::number);
        let right = given == wanted && lent.is_untouched();
        self.told(right, &format!("check of the cycle {bytes:?}"), wanted, given)
    }

    /// With the answers that are wanted: the definitions may have given them in another way.
    pub fn check_placing_for(&mut self, bytes: &[u8], wanted: Result<Answers, Refused>) -> Compared {
        let lent = Lent::of(self.random, bytes);
        let given = bixtogan::check_placing(self.sheet.lend(), lent.lend()).map_err(Refusal::number).map(|answers| {
            let bixtogan::Answers { solved, configuration, reading } = answers;
            Answers { solved, configuration, reading }
        });
        let right = given == wanted && lent.is_untouched();
        self.told(right, &format!("check of the placing {bytes:?}"), wanted, given)
    }

    pub fn check_placing(&mut self, bytes: &[u8]) -> Compared {
        self.check_placing_for(bytes, self.known.check_placing(bytes))
    }
}
