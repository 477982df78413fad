//! What each word answers.
use crate::dot::{self, Pictured};
use crate::form;
use bixtogan::{Count, Fragment, Place, Refusal, Unplaced, DRAWING, LAST, NODES, TERM, TOP};
use std::fmt::Write;

pub enum Failure {
    /// The sheet or the call was refused; what to print.
    Refused(Vec<u8>),
    Usage,
    Input(String),
}

pub type Answer = Result<Vec<u8>, Failure>;

impl From<Refusal> for Failure {
    fn from(why: Refusal) -> Failure {
        Failure::Refused(format!("{why}\n").into_bytes())
    }
}

/// The figures of a number, and how many there are.
const fn figures(number: u8) -> ([u8; 3], usize) {
    let [hundreds, tens, ones] = [b'0' + number / 100, b'0' + number / 10 % 10, b'0' + number % 10];
    match number {
        0..=9 => ([ones, 0, 0], 1),
        10..=99 => ([tens, ones, 0], 2),
        100.. => ([hundreds, tens, ones], 3),
    }
}

/// Those of every node, worked out once: a list writes some millions.
static FIGURES: [([u8; 3], usize); 256] = {
    let mut all = [([0; 3], 0); 256];
    let mut number = 0;
    while number < 256 {
        all[number] = figures(number as u8);
        number += 1;
    }
    all
};

fn write_number(text: &mut Vec<u8>, number: u8) {
    let (figures, length) = FIGURES[usize::from(number)];
    text.extend_from_slice(&figures[..length]);
}

/// A line with " root:leaf" for each hung root.
fn write_line(text: &mut Vec<u8>, head: &str, placing: &[u8]) {
    text.extend_from_slice(head.as_bytes());
    for (root, &leaf) in placing.iter().enumerate().filter(|(_, &leaf)| leaf != TOP) {
        text.push(b' ');
        write_number(text, root as u8);
        text.push(b':');
        write_number(text, leaf);
    }
    text.push(b'\n');
}

fn line(head: &str, placing: &[u8]) -> Vec<u8> {
    let mut text = Vec::new();
    write_line(&mut text, head, placing);
    text
}

/// A refusal, and the cycle where there is one: node and kind of edge in turn.
fn unplaced(why: Unplaced, out: &[u8]) -> Failure {
    let mut text = format!("{why}\n");
    if let Unplaced::Cycle(pairs) = why {
        let numbers: Vec<String> = out[..2 * pairs].iter().map(u8::to_string).collect();
        let _ = writeln!(text, "cycle {}", numbers.join(" "));
    }
    Failure::Refused(text.into_bytes())
}

fn count_line(count: Count) -> String {
    match count {
        Count::Exactly(readings) => format!("readings {readings}\n"),
        Count::More => format!("readings more than {LAST}\n"),
    }
}

pub fn nodes(sheet: &[u8]) -> Answer {
    Ok(format!("{}\n", bixtogan::nodes(sheet)?).into_bytes())
}

pub fn count(sheet: &[u8]) -> Answer {
    Ok(count_line(bixtogan::count(sheet)?).into_bytes())
}

/// One walk finds all readings. Only where they are as many as can be handed out does it take a count to tell whether there are
/// more.
pub fn list(sheet: &[u8]) -> Answer {
    let n = bixtogan::nodes(sheet)?;
    let mut out = vec![0; n * LAST as usize];
    let listed = Place::start().fill(sheet, &mut out).map_err(|why| Failure::from(why.refusal()))? as u64;
    let count = if listed < LAST { Count::Exactly(listed) } else { bixtogan::count(sheet)? };
    let mut text = count_line(count).into_bytes();
    for (k, placing) in (1..=listed).zip(out.chunks_exact(n)) {
        write_line(&mut text, &k.to_string(), placing);
    }
    Ok(text)
}

/// The placing of reading k; number 0 is refused as the drawing refuses it.
fn placing_of(k: u64, sheet: &[u8]) -> Result<Vec<u8>, Failure> {
    let mut out = vec![0; 2 * NODES];
    let mut place = Place::after(k.wrapping_sub(1));
    place.next(sheet, &mut out).map_err(|why| unplaced(why, &out))?;
    out.truncate(bixtogan::nodes(sheet)?);
    Ok(out)
}

pub fn reading(k: u64, sheet: &[u8]) -> Answer {
    Ok(line(&k.to_string(), &placing_of(k, sheet)?))
}

pub fn configuration(sheet: &[u8]) -> Answer {
    let mut out = vec![0; 2 * NODES];
    bixtogan::configuration(sheet, &mut out).map_err(|why| unplaced(why, &out))?;
    Ok(line("configuration", &out[..bixtogan::nodes(sheet)?]))
}

/// A reading as a text.
type Shows = fn(&[u8], u64, &mut [u8]) -> Result<usize, Refusal>;

/// The text of reading k, which is lent so many bytes, as a line.
fn shown(call: Shows, room: usize, k: u64, sheet: &[u8]) -> Answer {
    let mut out = vec![0; room];
    let length = call(sheet, k, &mut out)?;
    out.truncate(length);
    out.push(b'\n');
    Ok(out)
}

pub fn draw(k: u64, sheet: &[u8]) -> Answer {
    shown(bixtogan::drawing, DRAWING, k, sheet)
}

pub fn term(k: u64, sheet: &[u8]) -> Answer {
    shown(bixtogan::term, TERM, k, sheet)
}

/// A sheet that is handed back: it is never longer than the one handed in.
type HandsBack = fn(&[u8], &mut [u8]) -> Result<usize, Refusal>;

fn handed_back(call: HandsBack, sheet: &[u8]) -> Result<Vec<u8>, Refusal> {
    let mut out = vec![0; sheet.len()];
    let length = call(sheet, &mut out)?;
    out.truncate(length);
    Ok(out)
}

pub fn tidy(sheet: &[u8]) -> Answer {
    Ok(lines(&tidy_bytes(sheet)?))
}

pub fn tidy_bytes(sheet: &[u8]) -> Answer {
    Ok(handed_back(bixtogan::tidy, sheet)?)
}

pub fn labelled(sheet: &[u8]) -> Answer {
    Ok(lines(&labelled_bytes(sheet)?))
}

pub fn labelled_bytes(sheet: &[u8]) -> Answer {
    Ok(handed_back(bixtogan::labelled, sheet)?)
}

fn table(sheet: &[u8]) -> Result<Vec<Fragment>, Refusal> {
    let mut table = vec![Fragment::default(); NODES / 2];
    let records = bixtogan::fragments(sheet, &mut table)?;
    table.truncate(records);
    Ok(table)
}

pub fn fragments(sheet: &[u8]) -> Answer {
    let mut text = String::new();
    for record in table(sheet)? {
        let _ = writeln!(text, "{} {} {}", record.root, record.lowest_leaf, record.leaves);
    }
    Ok(text.into_bytes())
}

fn yes(answer: bool) -> &'static str {
    if answer {
        "yes"
    } else {
        "no"
    }
}

pub fn check_placing(text: &str, sheet: &[u8]) -> Answer {
    let mut placing = vec![TOP; bixtogan::nodes(sheet)?];
    for pair in text.split_whitespace() {
        let wrong = || Failure::Input(format!("{pair}: wanted ROOT:LEAF, with numbers of nodes"));
        let (root, leaf) = pair.split_once(':').ok_or_else(wrong)?;
        let root: usize = root.parse().map_err(|_| wrong())?;
        *placing.get_mut(root).ok_or_else(wrong)? = leaf.parse().map_err(|_| wrong())?;
    }
    let answers = bixtogan::check_placing(sheet, &placing)?;
    let text = format!(
        "solved form {}\nconfiguration {}\nreading {}\n",
        yes(answers.solved),
        yes(answers.configuration),
        yes(answers.reading)
    );
    Ok(text.into_bytes())
}

pub fn check_cycle(text: &str, sheet: &[u8]) -> Answer {
    let numbers: Result<Vec<u8>, _> = text.split_whitespace().map(str::parse).collect();
    let cycle = numbers
        .map_err(|_| Failure::Input("a cycle is numbers up to 255, node and kind of edge in turn".to_string()))?;
    Ok(format!("{}\n", yes(bixtogan::check_cycle(sheet, &cycle)?)).into_bytes())
}

/// What a picture of the sheet shows. Of a fragment with an added leaf no leaf is written, so its lowest one tells.
fn pictured(sheet: &[u8]) -> Result<Pictured, Refusal> {
    let commands = form::commands(sheet);
    let added = table(sheet)?.into_iter().filter(|record| record.lowest_leaf >= commands.nodes);
    let added = added.map(|record| (record.root, record.lowest_leaf)).collect();
    Ok(Pictured { commands, added })
}

/// The picture of a sheet that is read; where it has no reading, its cycle is marked.
pub fn dot(sheet: &[u8]) -> Answer {
    let mut out = vec![0; 2 * NODES];
    let cycle = match Place::start().next(sheet, &mut out) {
        Ok(()) => &[],
        Err(Unplaced::Cycle(pairs)) => &out[..2 * pairs],
        Err(Unplaced::Refused(why)) => return Err(why.into()),
    };
    Ok(dot::sheet(&pictured(sheet)?, cycle).into_bytes())
}

pub fn dot_reading(k: u64, sheet: &[u8]) -> Answer {
    let placing = placing_of(k, sheet)?;
    Ok(dot::placing(&pictured(sheet)?, &placing).into_bytes())
}

fn lines(sheet: &[u8]) -> Vec<u8> {
    form::commands(sheet).lines.iter().flat_map(|line| [line.as_bytes(), b"\n"].concat()).collect()
}

/// Whether the sheet is well-formed: as a labelled one where it has their commands.
fn judged(sheet: &[u8]) -> Result<(), Refusal> {
    if form::commands(sheet).labelled {
        handed_back(bixtogan::labelled, sheet).map(|_| ())
    } else {
        bixtogan::nodes(sheet).map(|_| ())
    }
}

/// What can be read of the sheet, and the refusal after it where it is not well-formed.
pub fn decode(sheet: &[u8]) -> Answer {
    let text = lines(sheet);
    match judged(sheet) {
        Ok(()) => Ok(text),
        Err(why) => Err(Failure::Refused([text, format!("# {why}\n").into_bytes()].concat())),
    }
}

pub fn encode(text: &str) -> Answer {
    form::encode(text).map_err(Failure::Input)
}
