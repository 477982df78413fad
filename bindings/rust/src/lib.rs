//! Readings of dominance sheets.
//!
//! A *sheet* is a run of bytes that describes tree fragments and dominance edges between them; its *readings* are the minimal
//! solved forms of that graph. The functions here call the proved static library; they keep no state, and nothing is asked of
//! the bytes lent: each call tests its own input.
//!
//! A word that stands alone is a node without tree edges. It is read as the root of a fragment, with one leaf added. Added leaves
//! are numbered after the nodes that the sheet writes, by ascending node; [`nodes`] counts both.
//!
//! A *labelled sheet* is a normal dominance constraint, with symbols for its nodes. Two calls take one: [`labelled`] makes a plain
//! sheet of it for the others, and [`term`] writes a reading of it as a term.
//!
//! A *placing* is n bytes, one a node, n being what [`nodes`] answers: the leaf that a root hangs under, or [`TOP`] for a root on
//! top and for a node that is no root.
//!
//! ```
//! use bixtogan::{count, Count, Place};
//!
//! // Two nodes, a tree edge from 0 to 1.
//! let sheet = [1, 2, 2, 0, 1, 0];
//! assert_eq!(count(&sheet), Ok(Count::Exactly(1)));
//!
//! let mut place = Place::start();
//! let mut out = [0; 4];
//! assert_eq!(place.next(&sheet, &mut out), Ok(()));
//! assert_eq!(out[..2], [255, 255]);
//! assert_eq!(place.number(), 1);
//! ```
#![warn(missing_docs)]

#[doc(hidden)]
pub mod foreign;
mod library;

use std::fmt;

/// The most nodes that a sheet has, added leaves counted.
pub const NODES: usize = 128;

/// The most bytes that a sheet has.
pub const LONGEST: usize = 2048;

/// The last number that a reading is asked for by, and the largest exact count.
pub const LAST: u64 = 65_535;

/// The bytes that a drawing is lent.
pub const DRAWING: usize = 1024;

/// The bytes that a term is lent.
pub const TERM: usize = 2048;

/// In a placing: a root on top, or a node that is no root.
pub const TOP: u8 = 255;

/// Why a call was refused. A number is given where its condition is the first to hold.
#[derive(Clone, Copy, Debug, PartialEq, Eq, Hash)]
#[repr(u8)]
pub enum Refusal {
    /// 1: a needed byte is missing.
    Missing = 1,
    /// 2: the command byte is unknown or out of place, or a byte follows the end.
    Command,
    /// 3: the number of nodes is outside 1 to 128, or an operand is no node that the sheet writes.
    Range,
    /// 4: a tree edge joins a node with itself or gives it a second parent, or tree edges form a cycle.
    Tree,
    /// 6: a dominance edge doesn't go from a leaf to a root.
    Ends = 6,
    /// 8: it would be the 256th different dominance edge.
    TooMany = 8,
    /// 9: no solved form exists.
    NoReading,
    /// 10: a lent buffer is too small.
    SmallBuffer,
    /// 11: the reading wanted has number 0, or lies beyond the count or beyond 65,535.
    NoSuchReading,
    /// 12: the sheet has more than 2,048 bytes.
    TooLong,
    /// 13: with a leaf added for each node without a tree edge, there are more than 128 nodes.
    Overgrown,
    /// 14: a node is labelled twice, or has not as many children as its symbol takes.
    Label,
    /// 15: two nodes are labelled, and nothing says that they differ.
    Overlap,
    /// 16: a dominance edge starts from a labelled leaf, or a node has neither label nor tree edge.
    Hole,
}

impl Refusal {
    const ALL: [Refusal; 14] = [
        Refusal::Missing,
        Refusal::Command,
        Refusal::Range,
        Refusal::Tree,
        Refusal::Ends,
        Refusal::TooMany,
        Refusal::NoReading,
        Refusal::SmallBuffer,
        Refusal::NoSuchReading,
        Refusal::TooLong,
        Refusal::Overgrown,
        Refusal::Label,
        Refusal::Overlap,
        Refusal::Hole,
    ];

    /// Its number, 1 to 4, 6 or 8 to 16.
    ///
    /// ```
    /// assert_eq!(bixtogan::count(&[5]).unwrap_err().number(), 2);
    /// ```
    pub fn number(self) -> u8 {
        self as u8
    }

    /// The refusal with a number. None has the number 5 or 7.
    ///
    /// ```
    /// use bixtogan::Refusal;
    ///
    /// assert_eq!(Refusal::of_number(12), Some(Refusal::TooLong));
    /// assert_eq!(Refusal::of_number(13), Some(Refusal::Overgrown));
    /// assert_eq!(Refusal::of_number(16), Some(Refusal::Hole));
    /// let numbers: Vec<u8> = (0..=255).filter(|&number| Refusal::of_number(number).is_some()).collect();
    /// assert_eq!(numbers, [1, 2, 3, 4, 6, 8, 9, 10, 11, 12, 13, 14, 15, 16]);
    /// ```
    pub fn of_number(number: u8) -> Option<Refusal> {
        Refusal::ALL.into_iter().find(|why| why.number() == number)
    }
}

impl fmt::Display for Refusal {
    fn fmt(&self, f: &mut fmt::Formatter<'_>) -> fmt::Result {
        write!(f, "refused {}", self.number())
    }
}

impl std::error::Error for Refusal {}

/// Why no placing was written.
#[derive(Clone, Copy, Debug, PartialEq, Eq)]
pub enum Unplaced {
    /// There is no solved form: a simple hypernormal cycle of so many pairs fills the first bytes, two a pair: node, and the
    /// kind of the edge to the next, 2 for tree and 3 for dominance.
    Cycle(usize),
    /// Nothing was written. Never [`Refusal::NoReading`].
    Refused(Refusal),
}

impl Unplaced {
    /// The refusal, 9 where a cycle was written.
    pub fn refusal(self) -> Refusal {
        match self {
            Unplaced::Cycle(_) => Refusal::NoReading,
            Unplaced::Refused(why) => why,
        }
    }
}

impl fmt::Display for Unplaced {
    fn fmt(&self, f: &mut fmt::Formatter<'_>) -> fmt::Result {
        self.refusal().fmt(f)
    }
}

impl std::error::Error for Unplaced {}

/// How many readings a sheet has.
#[derive(Clone, Copy, Debug, PartialEq, Eq)]
pub enum Count {
    /// 1 to 65,535.
    Exactly(u64),
    /// More than 65,535.
    More,
}

/// What the check of a placing says.
#[derive(Clone, Copy, Debug, PartialEq, Eq)]
pub struct Answers {
    /// Fragments and placing are a forest in which each dominance edge runs downward.
    pub solved: bool,
    /// Besides, no leaf carries two roots.
    pub configuration: bool,
    /// A solved form, and none has a strictly smaller descent relation.
    pub reading: bool,
}

/// A record of the fragment table.
#[derive(Clone, Copy, Debug, Default, PartialEq, Eq)]
#[repr(C)]
pub struct Fragment {
    /// Its root.
    pub root: u8,
    /// Its leaf with the lowest number.
    pub lowest_leaf: u8,
    /// How many leaves it has.
    pub leaves: u8,
}

/// What a call answers: 0, or the number of a refusal, and no other.
fn answered<T>(number: u8, value: T) -> Result<T, Refusal> {
    match number {
        0 => Ok(value),
        _ => Err(Refusal::of_number(number).expect("the number of a refusal")),
    }
}

fn placed(number: u8, pairs: u64) -> Result<(), Unplaced> {
    answered(number, ()).map_err(|why| match why {
        Refusal::NoReading => Unplaced::Cycle(pairs as usize),
        why => Unplaced::Refused(why),
    })
}

/// How many nodes the sheet has, added leaves counted: so many bytes has a placing. Refused only where the sheet is not
/// well-formed.
///
/// ```
/// use bixtogan::{nodes, Refusal};
///
/// // Three nodes and a tree edge from 0 to 1; node 2 stands alone, and leaf 3 is added to it.
/// assert_eq!(nodes(&[1, 3, 2, 0, 1, 0]), Ok(4));
/// // 65 nodes that stand alone would be 130.
/// assert_eq!(nodes(&[1, 65, 0]), Err(Refusal::Overgrown));
/// ```
pub fn nodes(sheet: &[u8]) -> Result<usize, Refusal> {
    let (number, nodes) = library::nodes(sheet);
    answered(number, nodes as usize)
}

/// How many readings the sheet has.
///
/// ```
/// use bixtogan::{count, Refusal};
///
/// // The root hangs below its own leaf.
/// assert_eq!(count(&[1, 2, 2, 0, 1, 3, 1, 0, 0]), Err(Refusal::NoReading));
/// ```
pub fn count(sheet: &[u8]) -> Result<Count, Refusal> {
    let (number, readings) = library::count(sheet);
    let count = if readings <= LAST { Count::Exactly(readings) } else { Count::More };
    answered(number, count)
}

/// A place in the list of readings: the number of the last reading handed out.
#[derive(Clone, Copy, Debug, PartialEq, Eq)]
pub struct Place(u64);

impl Place {
    /// Before the first reading.
    pub fn start() -> Place {
        Place(0)
    }

    /// After the reading with this number; every number is a place.
    pub fn after(number: u64) -> Place {
        Place(number)
    }

    /// The number of the last reading handed out.
    pub fn number(self) -> u64 {
        self.0
    }

    /// Writes the next reading, a placing, into the first n bytes of `out`, which has at least 2n, and moves the place on. After
    /// a refusal the place stays.
    ///
    /// ```
    /// use bixtogan::{check_cycle, Place, Unplaced};
    ///
    /// let sheet = [1, 2, 2, 0, 1, 3, 1, 0, 0];
    /// let mut out = [0; 4];
    /// let answer = Place::start().next(&sheet, &mut out);
    /// assert_eq!(answer, Err(Unplaced::Cycle(2)));
    /// assert_eq!(check_cycle(&sheet, &out), Ok(true));
    /// ```
    pub fn next(&mut self, sheet: &[u8], out: &mut [u8]) -> Result<(), Unplaced> {
        let (number, pairs) = library::reading(sheet, &mut self.0, out);
        placed(number, pairs)
    }

    /// Writes the readings after the place one after the other, n bytes each, as many as are left and as fit into `out`, and
    /// moves the place to the last of them; how many. One walk finds them all, where as many calls of [`Place::next`] walk from
    /// the first reading each. The buffer has at least 2n bytes, and after a refusal the place stays.
    ///
    /// ```
    /// use bixtogan::Place;
    ///
    /// // Two fragments that both want the third below their leaf: one of them goes below the other.
    /// let sheet = [1, 6, 2, 0, 1, 2, 2, 3, 2, 4, 5, 3, 1, 4, 3, 3, 4, 0];
    /// let mut out = [0; 12];
    /// let mut place = Place::start();
    /// assert_eq!(place.fill(&sheet, &mut out), Ok(2));
    /// assert_eq!(out[..6], [255, 255, 1, 255, 3, 255]);
    /// assert_eq!(out[6..], [3, 255, 255, 255, 1, 255]);
    /// assert_eq!(place.number(), 2);
    /// ```
    pub fn fill(&mut self, sheet: &[u8], out: &mut [u8]) -> Result<usize, Unplaced> {
        let before = self.0;
        let (number, pairs) = library::readings(sheet, &mut self.0, out);
        placed(number, pairs).map(|()| (self.0 - before) as usize)
    }
}

/// Writes a configuration into the first n bytes of `out`, which has at least 2n: each leaf carries one root at most.
pub fn configuration(sheet: &[u8], out: &mut [u8]) -> Result<(), Unplaced> {
    let (number, pairs) = library::configuration(sheet, out);
    placed(number, pairs)
}

/// Writes the drawing of the reading with this number into `out`, which has at least [`DRAWING`] bytes; its length.
///
/// ```
/// let mut out = [0; bixtogan::DRAWING];
/// let length = bixtogan::drawing(&[1, 2, 2, 0, 1, 0], 1, &mut out).unwrap();
/// assert_eq!(&out[..length], b"0(1)");
/// ```
pub fn drawing(sheet: &[u8], number: u64, out: &mut [u8]) -> Result<usize, Refusal> {
    let (refused, length) = library::drawing(sheet, number, out);
    answered(refused, length as usize)
}

/// Writes the tidy sheet: tree edges by child, then dominance edges by leaf and root, each edge once, and no added leaf; its
/// length.
///
/// ```
/// let mut out = [0; 9];
/// let sheet = [1, 3, 2, 0, 2, 2, 0, 1, 0];
/// assert_eq!(bixtogan::tidy(&sheet, &mut out), Ok(9));
/// assert_eq!(out, [1, 3, 2, 0, 1, 2, 0, 2, 0]);
///
/// // A dominance edge that is repeated is one edge.
/// let mut out = [0; 12];
/// let sheet = [1, 4, 2, 0, 1, 2, 2, 3, 3, 1, 2, 3, 1, 2, 0];
/// assert_eq!(bixtogan::tidy(&sheet, &mut out), Ok(12));
/// assert_eq!(out, [1, 4, 2, 0, 1, 2, 2, 3, 3, 1, 2, 0]);
/// ```
pub fn tidy(sheet: &[u8], out: &mut [u8]) -> Result<usize, Refusal> {
    let (number, length) = library::tidy(sheet, out);
    answered(number, length as usize)
}

/// Writes the plain sheet of a labelled one, tidy; its length.
///
/// A labelled sheet has two commands more, anywhere after the first. 5, a node and a symbol label the node: symbols 0 to 63 take no
/// child, 64 to 127 one, 128 to 191 two, 192 to 255 three. 6 says that all labelled nodes differ; it is needed where there are two,
/// and may be repeated. A node has one label at most, and without one no child. Dominance edges start from leaves that have a parent
/// and no label.
///
/// ```
/// use bixtogan::{count, labelled, Refusal};
///
/// // Node 0 has the symbol 64 and the child 1, which has the symbol 3.
/// let sheet = [1, 2, 5, 0, 64, 2, 0, 1, 5, 1, 3, 6, 0];
/// let mut out = [0; 6];
/// assert_eq!(labelled(&sheet, &mut out), Ok(6));
/// assert_eq!(out, [1, 2, 2, 0, 1, 0]);
/// // The other calls know no labels.
/// assert_eq!(count(&sheet), Err(Refusal::Command));
/// // The symbol 64 takes a child.
/// assert_eq!(labelled(&[1, 1, 5, 0, 64, 0], &mut out), Err(Refusal::Label));
/// ```
pub fn labelled(sheet: &[u8], out: &mut [u8]) -> Result<usize, Refusal> {
    let (number, length) = library::labelled(sheet, out);
    answered(number, length as usize)
}

/// Writes the reading with this number of a labelled sheet as a term into `out`, which has at least [`TERM`] bytes; its length.
///
/// The term is a tree that satisfies every literal of the sheet. Symbols are written as numbers, and after them the children in round
/// brackets. A hole that carries fragments is the symbol 128, lower root first, filled out with the constant 0; where it carries more
/// than two, the lowest root comes first and 128 once more, with the others, in the second place. One that carries none is 0. Several
/// fragments on top stand under a hole, too. Added leaves are not written.
///
/// ```
/// use bixtogan::{term, Refusal, TERM};
///
/// // Node 0 has the symbol 64 and the hole 1, and below the hole stands node 2 with the symbol 5.
/// let sheet = [1, 3, 5, 0, 64, 2, 0, 1, 5, 2, 5, 3, 1, 2, 6, 0];
/// let mut out = [0; TERM];
/// let length = term(&sheet, 1, &mut out).unwrap();
/// assert_eq!(&out[..length], b"64(128(5,0))");
/// assert_eq!(term(&sheet, 2, &mut out), Err(Refusal::NoSuchReading));
/// // A plain sheet has no labels.
/// assert_eq!(term(&[1, 2, 2, 0, 1, 0], 1, &mut out), Err(Refusal::Label));
/// ```
pub fn term(sheet: &[u8], number: u64, out: &mut [u8]) -> Result<usize, Refusal> {
    let (refused, length) = library::term(sheet, number, out);
    answered(refused, length as usize)
}

/// Writes a record for each fragment, by ascending root; how many.
///
/// ```
/// use bixtogan::{fragments, Fragment};
///
/// let mut table = [Fragment::default(); 1];
/// assert_eq!(fragments(&[1, 3, 2, 0, 2, 2, 0, 1, 0], &mut table), Ok(1));
/// assert_eq!(table[0], Fragment { root: 0, lowest_leaf: 1, leaves: 2 });
/// ```
pub fn fragments(sheet: &[u8], table: &mut [Fragment]) -> Result<usize, Refusal> {
    let (number, records) = library::fragments(sheet, table);
    answered(number, records as usize)
}

/// Whether the bytes spell a simple hypernormal cycle of the sheet.
pub fn check_cycle(sheet: &[u8], cycle: &[u8]) -> Result<bool, Refusal> {
    let (number, yes) = library::check_cycle(sheet, cycle);
    answered(number, yes != 0)
}

/// Whether the first n bytes are a solved form, a configuration, a reading of the sheet.
///
/// ```
/// let answers = bixtogan::check_placing(&[1, 2, 2, 0, 1, 0], &[255, 255]).unwrap();
/// assert!(answers.solved && answers.configuration && answers.reading);
/// ```
pub fn check_placing(sheet: &[u8], placing: &[u8]) -> Result<Answers, Refusal> {
    let (number, answers) = library::check_placing(sheet, placing);
    let answers = Answers { solved: answers & 1 != 0, configuration: answers & 2 != 0, reading: answers & 4 != 0 };
    answered(number, answers)
}
