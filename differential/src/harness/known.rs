//! What documents 01 and 02 say of a sheet and of each call on it.
use differential::graph::Graph;
use differential::labelled::{self, Constraint};
use differential::listing::{self, Leave};
use differential::placing::{self, Answers};
use differential::sheet;
use differential::{cycle, drawing, fragments, hypernormal, rule1, term, Refused, DRAWING, LAST, TERM};

/// How many readings there are, as far as it was worked out.
#[derive(Clone, Copy, Debug, PartialEq, Eq)]
pub enum Total {
    Exactly(u64),
    More,
    Unknown,
}

/// What a call that writes a placing or a cycle does.
#[derive(Debug)]
pub enum Placed {
    Done(Vec<u8>),
    Cycle,
    Refused(Refused),
}

pub struct Facts {
    /// The grown graph.
    pub graph: Graph,
    /// How many nodes are written.
    pub written: usize,
    pub tidy: Vec<u8>,
    pub table: Vec<[u8; 3]>,
    pub solvable: bool,
    /// The first readings.
    pub readings: Vec<Vec<u8>>,
    pub total: Total,
    configuration: Vec<u8>,
}

/// What is known of an accepted labelled sheet.
pub struct Accepted {
    pub constraint: Constraint,
    /// The plain sheet that is handed back.
    pub plain: Box<Known>,
}

pub struct Known {
    pub bytes: Vec<u8>,
    /// What they are as a plain sheet.
    pub facts: Result<Facts, Refused>,
    /// What they are as a labelled one.
    pub labelled: Result<Accepted, Refused>,
}

/// Graphs that the recursion may look at before free fragments help it.
const PLAIN_GRAPHS: usize = 3000;

/// Parts that the count by free fragments may look at.
const PARTS: usize = 20_000;

const FEW: u64 = 3000;

fn total(graph: &Graph, listed: usize, wanted: usize) -> Total {
    let count = if listed < wanted { Some(listed as u64) } else { fragments::count(graph, PARTS) };
    match count {
        None => Total::Unknown,
        Some(count) if count > LAST => Total::More,
        Some(count) => Total::Exactly(count),
    }
}

impl Facts {
    fn new(written: &Graph, wanted: usize) -> Result<Facts, String> {
        let graph = written.clone().grown();
        let solvable = fragments::solvable(&graph, &graph.dominance);
        if hypernormal::has_cycle(&graph) == solvable {
            return Err(format!("free fragments say solvable {solvable}, Section 7 does not"));
        }
        let readings = match listing::first(&graph, wanted, Leave::Cyclic, PLAIN_GRAPHS.max(4 * wanted)) {
            Ok(readings) => readings,
            Err(_) => listing::first(&graph, wanted, Leave::Unsolvable, usize::MAX).unwrap_or_default(),
        };
        if readings.is_empty() == solvable {
            return Err(format!("free fragments say solvable {solvable}, the recursion does not"));
        }
        let configuration = readings.first().map_or(Vec::new(), |first| rule1::configuration(&graph, first));
        Ok(Facts {
            tidy: sheet::tidy(written),
            table: sheet::table(&graph),
            solvable,
            total: if solvable { total(&graph, readings.len(), wanted) } else { Total::Exactly(0) },
            readings,
            configuration,
            written: written.nodes(),
            graph,
        })
    }

    /// The grown number of nodes.
    pub fn nodes(&self) -> usize {
        self.graph.nodes()
    }

    /// How many readings there are, where they are few. A call for a reading or the count walks from the first one, so long
    /// walks are not asked for on every sheet.
    pub fn few(&self) -> Option<u64> {
        match self.total {
            Total::Exactly(count) if count <= FEW => Some(count),
            _ => None,
        }
    }

    /// The reading with a number, or 11; none where the list was not worked out so far.
    fn reading(&self, number: u128) -> Option<Result<&[u8], Refused>> {
        if number == 0 || number > u128::from(LAST) {
            return Some(Err(11));
        }
        if let Some(reading) = self.readings.get(number as usize - 1) {
            return Some(Ok(reading));
        }
        match self.total {
            Total::Exactly(count) if number > u128::from(count) => Some(Err(11)),
            _ => None,
        }
    }

    /// The readings after a place, so many at most; none where the list was not worked out so far.
    fn stretch(&self, place: u64, most: u64) -> Option<&[Vec<u8>]> {
        let listed = self.readings.len() as u64;
        let last = place.saturating_add(most);
        (last <= listed || self.total == Total::Exactly(listed))
            .then(|| &self.readings[place as usize..last.min(listed) as usize])
    }
}

impl Known {
    /// With the first readings worked out, as many as wanted; an error where the ways to solve a sheet part.
    pub fn new(bytes: &[u8], wanted: usize) -> Result<Known, String> {
        let facts = match sheet::written(bytes) {
            Ok(written) => Ok(Facts::new(&written, wanted)?),
            Err(refused) => Err(refused),
        };
        let labelled = match labelled::read(bytes) {
            Ok(constraint) => {
                let plain = Box::new(Known::new(&sheet::tidy(&constraint.graph), wanted)?);
                Ok(Accepted { constraint, plain })
            }
            Err(refused) => Err(refused),
        };
        Ok(Known { bytes: bytes.to_vec(), facts, labelled })
    }

    fn read(&self) -> Result<&Facts, Refused> {
        self.facts.as_ref().map_err(|&refused| refused)
    }

    /// The bytes that a reading is lent; some number where the sheet isn't well-formed.
    pub fn room(&self) -> usize {
        self.read().map_or(64, |facts| 2 * facts.nodes())
    }

    pub fn nodes(&self) -> Result<usize, Refused> {
        self.read().map(Facts::nodes)
    }

    pub fn count(&self) -> Option<Result<Total, Refused>> {
        match self.read() {
            Err(refused) => Some(Err(refused)),
            Ok(facts) if !facts.solvable => Some(Err(9)),
            Ok(facts) => (facts.total != Total::Unknown).then_some(Ok(facts.total)),
        }
    }

    fn placed(&self, room: usize, answer: impl Fn(&Facts) -> Option<Placed>) -> Option<Placed> {
        match self.read() {
            Err(refused) => Some(Placed::Refused(refused)),
            Ok(facts) if room < 2 * facts.nodes() => Some(Placed::Refused(10)),
            Ok(facts) if !facts.solvable => Some(Placed::Cycle),
            Ok(facts) => answer(facts),
        }
    }

    pub fn reading(&self, place: u64, room: usize) -> Option<Placed> {
        self.placed(room, |facts| match facts.reading(u128::from(place) + 1)? {
            Ok(reading) => Some(Placed::Done(reading.to_vec())),
            Err(refused) => Some(Placed::Refused(refused)),
        })
    }

    /// The readings after a place, as many as are left and as there is room for.
    pub fn fill(&self, place: u64, room: usize) -> Option<Placed> {
        self.placed(room, |facts| {
            let fitting = (room / facts.nodes()) as u64;
            match facts.reading(u128::from(place) + 1)? {
                Err(refused) => Some(Placed::Refused(refused)),
                Ok(_) => Some(Placed::Done(facts.stretch(place, fitting.min(LAST - place))?.concat())),
            }
        })
    }

    pub fn configuration(&self, room: usize) -> Option<Placed> {
        self.placed(room, |facts| Some(Placed::Done(facts.configuration.clone())))
    }

    /// The reading that a text shows, with the sheet's facts, where no fewer bytes are lent than the least.
    fn shown(&self, number: u64, room: usize, least: usize) -> Option<Result<(&Facts, &[u8]), Refused>> {
        match self.read() {
            Err(refused) => Some(Err(refused)),
            Ok(_) if room < least => Some(Err(10)),
            Ok(facts) if !facts.solvable => Some(Err(9)),
            Ok(facts) => Some(facts.reading(u128::from(number))?.map(|reading| (facts, reading))),
        }
    }

    pub fn drawing(&self, number: u64, room: usize) -> Option<Result<String, Refused>> {
        let shown = self.shown(number, room, DRAWING)?;
        Some(shown.map(|(facts, reading)| drawing::drawing(&facts.graph, reading)))
    }

    pub fn term(&self, number: u64, room: usize) -> Option<Result<String, Refused>> {
        match &self.labelled {
            Err(refused) => Some(Err(*refused)),
            Ok(Accepted { constraint, plain }) => {
                let shown = plain.shown(number, room, TERM)?;
                Some(shown.map(|(_, reading)| term::term(constraint, reading)))
            }
        }
    }

    pub fn tidy(&self, room: usize) -> Result<&[u8], Refused> {
        let facts = self.read()?;
        if room < facts.tidy.len() {
            return Err(10);
        }
        Ok(&facts.tidy)
    }

    pub fn labelled(&self, room: usize) -> Result<&[u8], Refused> {
        let plain = &self.labelled.as_ref().map_err(|&refused| refused)?.plain.bytes;
        if room < plain.len() {
            return Err(10);
        }
        Ok(plain)
    }

    pub fn table(&self, records: usize) -> Result<&[[u8; 3]], Refused> {
        let facts = self.read()?;
        if records < facts.table.len() {
            return Err(10);
        }
        Ok(&facts.table)
    }

    pub fn check_cycle(&self, bytes: &[u8]) -> Result<bool, Refused> {
        Ok(cycle::check(&self.read()?.graph, bytes))
    }

    pub fn check_placing(&self, bytes: &[u8]) -> Result<Answers, Refused> {
        let facts = self.read()?;
        let placing = bytes.get(..facts.nodes()).ok_or(10)?;
        Ok(placing::check(&facts.graph, placing))
    }
}
