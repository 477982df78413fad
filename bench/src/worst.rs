//! The search for the sheet on which our calls take longest. A sheet is made of its seed alone, so that it can be made again.
use crate::calls::our_count;
use crate::cases::{beside_fork, dying_halves};
use crate::families::Family;
use bixtogan::Place;
use differential::graph::{Graph, NODES};
use differential::random::Random;
use differential::sheets::{chain, crowded_graph, forest, random_fork, random_graph, shuffled, Trees};
use differential::{sheet, LAST};
use std::hint::black_box;
use std::time::{Duration, Instant};

const CALLS: [&str; 3] = ["count", "list", "configuration"];

/// How many are printed of each call.
const PRINTED: usize = 5;

/// A call that takes longer is made once.
const LONG: Duration = Duration::from_millis(20);

/// Trees of any shape, often the smallest and as many as there can be, and edges between them.
fn joined(random: &mut Random, family: Family) -> Graph {
    let nodes = if random.once_in(2) { NODES } else { random.between(32, NODES) };
    let fragments = if random.once_in(2) { nodes / 2 } else { random.between(nodes / 4, nodes / 2) };
    let trees = random.pick(&[Trees::Flat, Trees::Tall, Trees::Any]);
    let mut graph = forest(random, nodes, fragments, trees);
    let edges = random.between(fragments, 255);
    family.join(random, &mut graph, edges);
    if random.once_in(2) {
        return shuffled(random, &graph);
    }
    graph
}

/// A sheet of any kind, and which.
fn any(random: &mut Random) -> (&'static str, Vec<u8>) {
    // So large that even the largest of each kind has no more than 128 nodes.
    let size = random.between(6, 24);
    let (kind, graph) = match random.below(16) {
        0 => return ("chain", chain(size)),
        1 => ("refused", beside_fork(size)),
        2 => ("halves", dying_halves(size.min(14))),
        3 => ("one lowest", random_fork(random, size * 7 / 4)),
        4 | 5 => ("random", random_graph(random, NODES)),
        6 => ("crowded", crowded_graph(random)),
        _ => {
            let family = random.pick(&[Family::Dag, Family::Band, Family::Bipartite, Family::Forks]);
            (family.name(), joined(random, family))
        }
    };
    (kind, sheet::tidy(&graph))
}

/// The sheet with a seed.
pub fn sheet(seed: u64) -> Vec<u8> {
    any(&mut Random::new(seed)).1
}

struct Tried {
    /// The seed and what the sheet is.
    name: String,
    seed: u64,
    /// The times of the calls.
    times: [Duration; CALLS.len()],
}

/// The least time of a call: a short one is made more often, for the first time may be that of a cold cache.
fn least<T>(mut call: impl FnMut() -> T) -> Duration {
    let mut once = || {
        let start = Instant::now();
        black_box(call());
        start.elapsed()
    };
    let first = once();
    let more = if first > LONG { 0 } else { 5 };
    (0..more).map(|_| once()).fold(first, Duration::min)
}

fn tried(seed: u64, out: &mut [u8]) -> Result<Tried, String> {
    let (kind, bytes) = any(&mut Random::new(seed));
    let graph = sheet::read(&bytes).map_err(|number| format!("seed {seed}: refused {number}"))?;
    let (nodes, edges) = (graph.nodes(), graph.dominance.len());
    let mut count = 0;
    let times = [
        least(|| count = our_count(black_box(&bytes))),
        least(|| Place::start().fill(black_box(&bytes), out)),
        least(|| bixtogan::configuration(black_box(&bytes), out)),
    ];
    let readings = if count > LAST { format!("more than {LAST}") } else { count.to_string() };
    let name = format!("seed {seed}: {kind}, {nodes} nodes and {edges} edges, {readings} readings");
    Ok(Tried { name, seed, times })
}

fn milliseconds(time: Duration) -> f64 {
    time.as_secs_f64() * 1e3
}

/// Tries so many sheets from a seed on, and prints the slowest of each call.
pub fn search(seed: u64, sheets: u64) -> Result<(), String> {
    let mut out = vec![0; LAST as usize * NODES];
    let mut all =
        (0..sheets).map(|at| tried(seed.wrapping_add(at), &mut out)).collect::<Result<Vec<Tried>, String>>()?;
    for (call, name) in CALLS.iter().enumerate() {
        all.sort_by_key(|tried| std::cmp::Reverse(tried.times[call]));
        println!("{name}, milliseconds:");
        for tried in all.iter().take(PRINTED) {
            println!("{:12.3}  {}", milliseconds(tried.times[call]), tried.name);
        }
    }
    let worst = |tried: &Tried| tried.times.into_iter().enumerate().max_by_key(|&(_, time)| time);
    if let Some((tried, (call, time))) =
        all.iter().filter_map(|tried| Some((tried, worst(tried)?))).max_by_key(|&(_, (_, time))| time)
    {
        println!("worst: {}, {:.3} ms, {}", CALLS[call], milliseconds(time), tried.name);
        println!("again: bench worst --seed {} --sheets 1", tried.seed);
    }
    Ok(())
}

#[cfg(test)]
mod tests {
    /// Every sheet is well-formed, and the same when it is made again.
    #[test]
    fn a_seed_makes_a_sheet() {
        for seed in 0..40 {
            let bytes = super::sheet(seed);
            assert!(differential::sheet::read(&bytes).is_ok(), "seed {seed}");
            assert_eq!(bytes, super::sheet(seed));
        }
    }
}
