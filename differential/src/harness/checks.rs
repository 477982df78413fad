//! The two checks: of placings and of cycles.
use super::calls::{Caller, Compared};
use super::cycles;
use super::known::{Facts, Total};
use super::trial::lengths;
use super::Difference;
use differential::brute;
use differential::graph::Graph;
use differential::placing::{is_matching, Answers, TOP};
use differential::random::Random;
use differential::sheets::random_hanging;

/// Placings of a sheet that is tiny enough to try them all.
const TINY: usize = 2500;

/// The placing with one root hung elsewhere.
fn moved(random: &mut Random, graph: &Graph, placing: &[u8]) -> Vec<u8> {
    let mut moved = placing.to_vec();
    let mut under = graph.leaves();
    under.push(usize::from(TOP));
    moved[random.pick(&graph.roots())] = random.pick(&under) as u8;
    moved
}

/// The check of readings, of placings near them, of others, and of bytes that are no placing.
pub fn placings(caller: &mut Caller, facts: &Facts) -> Compared {
    let nodes = facts.nodes();
    for reading in facts.readings.iter().take(20) {
        let sure = Answers { solved: true, configuration: is_matching(reading), reading: true };
        caller.check_placing_for(reading, Ok(sure))?;
        let near = moved(caller.random, &facts.graph, reading);
        caller.check_placing(&near)?;
    }
    for _ in 0..12 {
        let hanging = random_hanging(caller.random, &facts.graph);
        caller.check_placing(&hanging)?;
        let mut bytes = moved(caller.random, &facts.graph, &hanging);
        bytes.extend((0..caller.random.below(9)).map(|_| 7));
        caller.check_placing(&bytes)?;
        let at = caller.random.below(nodes);
        bytes[at] = caller.random.byte();
        caller.check_placing(&bytes)?;
    }
    for room in lengths(caller.random, nodes) {
        let mut bytes = vec![TOP; room];
        if let (Some(reading), true) = (facts.readings.first(), room >= nodes) {
            bytes[..nodes].copy_from_slice(reading);
        }
        caller.check_placing(&bytes)?;
        let bytes: Vec<u8> = (0..room).map(|_| caller.random.byte()).collect();
        caller.check_placing(&bytes)?;
    }
    let configuration = caller.configuration(2 * nodes)?;
    if facts.solvable {
        caller.check_placing(&configuration)?;
    }
    Ok(())
}

/// A tiny sheet: the definitions as they stand, on all of its placings.
pub fn all_placings(caller: &mut Caller, facts: &Facts) -> Compared {
    if brute::placings(&facts.graph) > TINY {
        return Ok(());
    }
    let solved = brute::solved_forms(&facts.graph);
    let readings: Vec<&[u8]> = brute::minimal(&solved).iter().map(|form| &form.placing[..]).collect();
    let whole = readings.len() == facts.readings.len() || facts.total != Total::Exactly(facts.readings.len() as u64);
    if !whole || facts.readings.iter().any(|reading| !readings.contains(&&reading[..])) {
        return Err(Difference {
            sheet: caller.known.bytes.clone(),
            call: "none: the second implementation is at odds with the definitions".to_string(),
            wanted: format!("{readings:?}"),
            given: format!("{:?}", facts.readings),
        });
    }
    for form in &solved {
        let answers = Answers {
            solved: true,
            configuration: is_matching(&form.placing),
            reading: readings.contains(&&form.placing[..]),
        };
        if solved.len() < 64 || caller.random.once_in(16) {
            caller.check_placing_for(&form.placing, Ok(answers))?;
        }
    }
    let few = brute::placings(&facts.graph) / 64 + 1;
    let mut some = Vec::new();
    brute::each_placing(&facts.graph, |placing| {
        if caller.random.once_in(few) {
            some.push(placing.to_vec());
        }
    });
    for placing in some {
        let is_solved = solved.iter().any(|form| form.placing == placing);
        let answers = Answers {
            solved: is_solved,
            configuration: is_solved && is_matching(&placing),
            reading: readings.contains(&&placing[..]),
        };
        caller.check_placing_for(&placing, Ok(answers))?;
    }
    Ok(())
}

/// The check of cycles: the one handed out, some found by chance, turned and changed ones, and noise.
pub fn cycles(caller: &mut Caller, facts: &Facts) -> Compared {
    let nodes = facts.nodes();
    let mut bases = vec![Vec::new()];
    if !facts.solvable {
        bases.push(caller.configuration(2 * nodes)?);
    }
    bases.extend((0..6).filter_map(|_| cycles::found(caller.random, &facts.graph)));
    for base in bases {
        caller.check_cycle(&base)?;
        for _ in 0..3 {
            let turned = cycles::turned(caller.random, &base);
            caller.check_cycle(&turned)?;
            let changed = cycles::changed(caller.random, &turned, nodes);
            caller.check_cycle(&changed)?;
        }
    }
    for _ in 0..4 {
        let any = cycles::any(caller.random, nodes);
        caller.check_cycle(&any)?;
    }
    let long: Vec<u8> = (0..caller.random.between(200, 700)).map(|_| caller.random.byte()).collect();
    caller.check_cycle(&long)
}
