//! The tables: the programs on each case, then the calls.
use crate::calls::{self, Called};
use crate::cases::{self, Case};
use crate::measure::{self, Program, PROGRAMS};
use crate::table::{self, microseconds, milliseconds, Amount, WAYS};
use crate::{instructions, lines, Options};

/// How many times as long as a program by itself its run in callgrind may take.
const CALLGRIND: u32 = 20;

/// The programs on one case.
struct Run {
    /// What line 1 says.
    readings: String,
    /// Those that came to an end within the limit.
    ended: [bool; PROGRAMS],
    amounts: [Amount; PROGRAMS],
}

/// Compares what the programs print, then takes the times of those that ended. What ended once does so again: only the first run has
/// the limit.
fn run(options: &Options, programs: &[Program; PROGRAMS], case: &Case) -> Result<Run, String> {
    let printed = programs.each_ref().map(|program| program.output_within(options.limit, &case.sheet));
    let [ours, recursion, reduced, free, readings] = printed.each_ref().map(Option::as_deref);
    let in_order: Vec<&[u8]> = [ours, recursion, reduced, readings].into_iter().flatten().collect();
    lines::compare(&in_order, free).map_err(|why| format!("{}: {why}", case.name))?;
    let ended = printed.each_ref().map(Option::is_some);
    let amounts = if options.instructions {
        let of = |program| instructions::of(program, &case.sheet, CALLGRIND * options.limit);
        let millions = |instructions| Amount::Of(instructions as f64 / 1e6);
        std::array::from_fn(|at| programs.get(at).filter(|_| ended[at]).and_then(of).map_or(Amount::Unknown, millions))
    } else {
        let times = measure::medians(options.repeat, ended, |program| programs[program].output(&case.sheet));
        milliseconds(times, options.limit)
    };
    let readings = printed.iter().flatten().next().map_or("-".to_string(), |text| lines::count(text));
    Ok(Run { readings, ended, amounts })
}

/// The table of the programs; of each case the ways that ended.
fn of_programs(options: &Options, cases: &[Case]) -> Result<Vec<Called>, String> {
    let programs = Program::all(&options.readings)?;
    let unit = if options.instructions { "millions of instructions" } else { "milliseconds" };
    table::heading("The list as text, a process each", unit, PROGRAMS);
    let mut ended = Vec::new();
    for case in cases {
        let run = run(options, &programs, case)?;
        table::row(&case.name, &run.readings, run.amounts);
        let [ours, recursion, reduced, free, _] = run.ended;
        ended.push([ours, recursion, reduced, free]);
    }
    Ok(ended)
}

fn of_calls(options: &Options, cases: &[(&Case, Called)]) -> Result<(), String> {
    let agree = |&(case, called): &(&Case, Called)| Ok(calls::agree(case, called)?.to_string());
    let readings: Vec<String> = cases.iter().map(agree).collect::<Result<_, String>>()?;
    println!();
    table::heading("The list as placings, a call each", "microseconds", WAYS);
    for (&(case, called), readings) in cases.iter().zip(&readings) {
        table::row(&case.name, readings, microseconds(calls::lists(case, options.repeat, called)?));
    }
    println!();
    table::heading(
        "The count, a call each (the chart multiplies, the others walk through all readings)",
        "microseconds",
        WAYS,
    );
    for (&(case, called), readings) in cases.iter().zip(&readings) {
        table::row(&case.name, readings, microseconds(calls::counts(case, options.repeat, called)));
    }
    Ok(())
}

pub fn print(options: &Options) -> Result<(), String> {
    let cases: Vec<Case> = cases::all().into_iter().filter(|case| case.name.starts_with(&options.family)).collect();
    let ended = of_programs(options, &cases)?;
    if options.instructions {
        return Ok(());
    }
    of_calls(options, &cases.iter().zip(ended).collect::<Vec<_>>())
}
