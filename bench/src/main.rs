//! The list of readings, timed beside three other ways to make it: Section 5's recursion with its directed-cycle test, the same on a
//! graph that is kept reduced, and free fragments with a chart, which is how today's solvers go about it. Each table checks first
//! that all agree.
mod calls;
mod cases;
mod earlier;
mod families;
mod free;
mod instructions;
mod lines;
mod measure;
mod placings;
mod plain;
mod reduced;
mod sheet;
mod table;
mod tables;
mod worst;

use lines::Lines;
use sheet::Sheet;
use std::io::{Read, Write};
use std::process::ExitCode;
use std::time::Duration;

const USAGE: &str = "\
usage: bench [--repeat N] [--limit SECONDS] [--readings PATH] [--instructions] [--family WORD]
  --repeat N       runs of which the median is taken (default 15)
  --limit SECONDS  a program that takes longer is killed (default 10), and its way left out of what follows; free fragments take
                   a gigabyte in ten seconds
  --readings PATH  our program `readings` (default target/bin/readings)
  --instructions   instructions executed by the programs, by callgrind, in place of times
  --family WORD    only the cases whose name begins with it: chain, random, refused, halves, dag, band, bipartite, forks
       bench worst [--seed N] [--sheets N]
  --seed N         the seed of the first sheet (default 1); the next has the next seed
  --sheets N       how many random sheets (default 200) our calls are timed on; the slowest are printed with their seeds
       bench earlier NOW EARLIER [--repeat N] [--family WORD]
                        calls of the library beside those of an earlier build of it, both as shared objects
       bench sheet SEED                               the sheet of `worst` with that seed, as bytes
       bench list recursion|reduced|free < SHEET
";

struct Options {
    repeat: usize,
    limit: Duration,
    readings: String,
    instructions: bool,
    family: String,
}

fn options(arguments: &[String]) -> Option<Options> {
    let mut options = Options {
        repeat: 15,
        limit: Duration::from_secs(10),
        readings: "target/bin/readings".to_string(),
        instructions: false,
        family: String::new(),
    };
    let mut rest = arguments.iter();
    while let Some(name) = rest.next() {
        match name.as_str() {
            "--repeat" => options.repeat = rest.next()?.parse().ok().filter(|&repeat| repeat > 0)?,
            "--limit" => options.limit = Duration::try_from_secs_f64(rest.next()?.parse().ok()?).ok()?,
            "--readings" => options.readings = rest.next()?.clone(),
            "--instructions" => options.instructions = true,
            "--family" => options.family = rest.next()?.clone(),
            _ => return None,
        }
    }
    Some(options)
}

/// The seed of the first sheet, and how many there are.
fn seeds(arguments: &[String]) -> Option<(u64, u64)> {
    let (mut seed, mut sheets) = (1, 200);
    for pair in arguments.chunks(2) {
        match pair {
            [name, value] if name == "--seed" => seed = value.parse().ok()?,
            [name, value] if name == "--sheets" => sheets = value.parse().ok()?,
            _ => return None,
        }
    }
    Some((seed, sheets))
}

/// The printed list of a sheet, made in one of the other ways.
fn printed(way: &str, bytes: &[u8]) -> Option<Vec<u8>> {
    let sheet = match Sheet::read(bytes) {
        Ok(sheet) => sheet,
        Err(number) => return Some(lines::refused(number)),
    };
    let mut lines = Lines::new(&sheet);
    match way {
        "recursion" => plain::list(&sheet, &mut lines),
        "reduced" => reduced::list(&sheet, &mut lines),
        "free" => free::list(&sheet, &mut lines),
        _ => return None,
    }
    Some(lines.finish())
}

/// Prints the list of the sheet on standard input.
fn list(way: &str) -> Option<()> {
    let mut bytes = Vec::new();
    std::io::stdin().read_to_end(&mut bytes).ok()?;
    std::io::stdout().write_all(&printed(way, &bytes)?).ok()
}

/// What the words ask for; none where they ask for nothing that there is.
fn run(arguments: &[String]) -> Option<Result<(), String>> {
    let words: Vec<&str> = arguments.iter().map(String::as_str).collect();
    match words[..] {
        ["list", way] => list(way).map(Ok),
        ["sheet", seed] => std::io::stdout().write_all(&worst::sheet(seed.parse().ok()?)).ok().map(Ok),
        ["earlier", now, before, ..] => {
            options(&arguments[3..]).map(|options| earlier::print(now, before, options.repeat, &options.family))
        }
        ["worst", ..] => seeds(&arguments[1..]).map(|(seed, sheets)| worst::search(seed, sheets)),
        _ => options(arguments).map(|options| tables::print(&options)),
    }
}

fn main() -> ExitCode {
    let arguments: Vec<String> = std::env::args().skip(1).collect();
    match run(&arguments) {
        None => {
            eprint!("{USAGE}");
            ExitCode::from(2)
        }
        Some(Ok(())) => ExitCode::SUCCESS,
        Some(Err(why)) => {
            eprintln!("bench: {why}");
            ExitCode::FAILURE
        }
    }
}
