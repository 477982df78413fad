//! The command line: a sheet on standard input, plain text out. Refusals are one line, "refused" and the number.
mod dot;
mod form;
mod input;
mod words;

use input::{file, number, sheet, text};
use std::io::Write;
use std::process::ExitCode;
use words::{Answer, Failure};

const USAGE: &str = "\
usage: bixtogan WORD < SHEET
  list                how many readings there are, and each of them
  count               how many readings there are
  nodes               how many nodes there are, with the leaf added to each that has no tree edge
  reading K           reading K: root:leaf for each root that hangs under a leaf
  configuration       a configuration, in the same way
  draw K              reading K, drawn in one line
  tidy                the sheet's text, tidy; the sheet itself with `tidy --bytes`
  labelled            the text of the plain sheet that a labelled one means, tidy; the sheet itself with `labelled --bytes`
  term K              reading K of a labelled sheet, as a term: symbols, and their children in brackets
  fragments           root, lowest leaf and number of leaves of each fragment
  check-placing FILE  whether FILE's root:leaf pairs are a solved form, a configuration, a reading
  check-cycle FILE    whether FILE's numbers, node and kind of edge in turn, are a simple hypernormal cycle
  dot                 a Graphviz picture of the sheet, its cycle marked where it has no reading
  dot K               a Graphviz picture of reading K
  decode              the sheet's text: lines `nodes 12`, `tree 0 1`, `dom 1 6`, `label 0 128`, `differ`
  encode              the sheet of a text (the text on standard input)
";

fn answer(words: &[&str]) -> Answer {
    match words {
        ["list"] => words::list(&sheet()?),
        ["count"] => words::count(&sheet()?),
        ["nodes"] => words::nodes(&sheet()?),
        ["reading", k] => words::reading(number(k)?, &sheet()?),
        ["configuration"] => words::configuration(&sheet()?),
        ["draw", k] => words::draw(number(k)?, &sheet()?),
        ["tidy"] => words::tidy(&sheet()?),
        ["tidy", "--bytes"] => words::tidy_bytes(&sheet()?),
        ["labelled"] => words::labelled(&sheet()?),
        ["labelled", "--bytes"] => words::labelled_bytes(&sheet()?),
        ["term", k] => words::term(number(k)?, &sheet()?),
        ["fragments"] => words::fragments(&sheet()?),
        ["check-placing", name] => words::check_placing(&file(name)?, &sheet()?),
        ["check-cycle", name] => words::check_cycle(&file(name)?, &sheet()?),
        ["dot"] => words::dot(&sheet()?),
        ["dot", k] => words::dot_reading(number(k)?, &sheet()?),
        ["decode"] => words::decode(&sheet()?),
        ["encode"] => words::encode(&text()?),
        _ => Err(Failure::Usage),
    }
}

fn main() -> ExitCode {
    let arguments: Vec<String> = std::env::args().skip(1).collect();
    let arguments: Vec<&str> = arguments.iter().map(String::as_str).collect();
    let (text, status) = match answer(&arguments) {
        Ok(text) => (text, ExitCode::SUCCESS),
        Err(Failure::Refused(text)) => (text, ExitCode::FAILURE),
        Err(Failure::Usage) => {
            eprint!("{USAGE}");
            return ExitCode::from(2);
        }
        Err(Failure::Input(why)) => {
            eprintln!("bixtogan: {why}");
            return ExitCode::from(2);
        }
    };
    // A reader that stops early is no error of ours.
    let _ = std::io::stdout().write_all(&text);
    status
}
