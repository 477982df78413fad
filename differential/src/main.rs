//! Holds every call of the library against this package's own implementation of documents 01 and 02, on random sheets.
mod harness;

use differential::labelling::random_labelled;
use differential::random::Random;
use harness::difference::unhex;
use harness::{deep, Difference, Tally};
use std::process::ExitCode;

const USAGE: &str = "\
usage: differential [--seed N] [--sheets N] [--first N] [--bytes HEX]
  --seed N    the seed that fixes the sheets (default 1)
  --sheets N  how many random sheets of either kind (default 2500), each with damaged forms of it
  --first N   the number of the first one (default 0)
  --bytes HEX this sheet alone
";

const DAMAGED: usize = 4;

struct Options {
    seed: u64,
    sheets: u64,
    first: u64,
    bytes: Option<Vec<u8>>,
}

fn options(arguments: &[String]) -> Option<Options> {
    let mut options = Options { seed: 1, sheets: 2500, first: 0, bytes: None };
    for pair in arguments.chunks(2) {
        let [name, value] = pair else {
            return None;
        };
        match name.as_str() {
            "--seed" => options.seed = value.parse().ok()?,
            "--sheets" => options.sheets = value.parse().ok()?,
            "--first" => options.first = value.parse().ok()?,
            "--bytes" => options.bytes = Some(unhex(value)?),
            _ => return None,
        }
    }
    Some(options)
}

/// The random numbers of one sheet: the same whichever sheets come before it.
fn random_of(seed: u64, index: u64) -> Random {
    let seed = Random::new(seed).word();
    Random::new(Random::new(seed ^ index).word())
}

fn run(options: &Options) -> Result<Tally, Difference> {
    if let Some(bytes) = &options.bytes {
        return harness::try_any(&mut random_of(options.seed, 0), bytes);
    }
    let mut tally = Tally::default();
    for index in options.first..options.first + options.sheets {
        let mut random = random_of(options.seed, index);
        let bytes = harness::random_sheet(&mut random, index);
        tally += harness::try_any(&mut random, &bytes)?;
        tally += harness::try_damaged(&mut random, &bytes, DAMAGED)?;
        let labelled = random_labelled(&mut random);
        tally += harness::try_any(&mut random, &labelled.bytes())?;
        tally += harness::try_mislabelled(&mut random, &labelled, DAMAGED)?;
    }
    let mut random = random_of(options.seed, u64::MAX);
    for bytes in deep::sheets(&mut random) {
        tally += deep::try_deep(&mut random, &bytes)?;
    }
    for bytes in deep::labelled_sheets(&mut random) {
        tally += deep::try_deep_terms(&mut random, &bytes)?;
    }
    Ok(tally)
}

fn main() -> ExitCode {
    let arguments: Vec<String> = std::env::args().skip(1).collect();
    let Some(options) = options(&arguments) else {
        eprint!("{USAGE}");
        return ExitCode::from(2);
    };
    match run(&options) {
        Ok(Tally { sheets, refused, overgrown, grown, unsolvable, labelled, terms, calls }) => {
            let seed = options.seed;
            println!(
                "seed {seed}: {calls} calls on {sheets} sheets ({refused} not well-formed, {overgrown} of them overgrown; \
                 {grown} grown; {unsolvable} without a reading; {labelled} labelled ones accepted, {terms} of \
                 their terms satisfied) compared, no difference"
            );
            ExitCode::SUCCESS
        }
        Err(difference) => {
            println!("{difference}");
            ExitCode::FAILURE
        }
    }
}
