//! Free fragments, as today's solvers take them: a connected part is split by each fragment that can stand on top of it, the
//! parts that are left hang under its leaves, and each part is split only once (a chart). The list is read off the chart.
use crate::sheet::{Readings, Sheet, FRAGMENTS, LEAVES, TOP};
use std::collections::HashMap;

/// A set of fragments.
type Part = u64;

/// A part of the chart, by its place.
type Place = u32;

fn members(mut part: Part) -> impl Iterator<Item = usize> {
    std::iter::from_fn(move || {
        let lowest = part.trailing_zeros() as usize;
        part &= part.wrapping_sub(1);
        (lowest < FRAGMENTS).then_some(lowest)
    })
}

/// A fragment on top, and where the parts below it stand among `Chart::below`.
struct Split {
    top: u8,
    from: u32,
    to: u32,
}

/// A part and the leaf that it hangs under.
#[derive(Clone, Copy)]
struct Below {
    leaf: u8,
    part: Place,
}

struct Chart<'a> {
    sheet: &'a Sheet,
    /// For each leaf the fragments that its edges lead to.
    under: [Part; LEAVES],
    /// For each fragment those with an edge to it, and those that an edge joins it with.
    above: [Part; FRAGMENTS],
    joined: [Part; FRAGMENTS],
    places: HashMap<Part, Place>,
    splits: Vec<Vec<Split>>,
    below: Vec<Below>,
}

/// There is a part that no fragment can stand on top of.
struct Unsolvable;

impl<'a> Chart<'a> {
    fn new(sheet: &'a Sheet) -> Chart<'a> {
        let mut chart = Chart {
            sheet,
            under: [0; LEAVES],
            above: [0; FRAGMENTS],
            joined: [0; FRAGMENTS],
            places: HashMap::new(),
            splits: Vec::new(),
            below: Vec::new(),
        };
        for &(leaf, root) in &sheet.edges {
            let (leaf, lower) = (usize::from(leaf), usize::from(root));
            let upper = usize::from(sheet.owner[leaf]);
            chart.under[leaf] |= 1 << lower;
            chart.above[lower] |= 1 << upper;
            chart.joined[upper] |= 1 << lower;
            chart.joined[lower] |= 1 << upper;
        }
        chart
    }

    /// The fragments of `within` that are connected with those of `start`.
    fn connected(&self, start: Part, within: Part) -> Part {
        let mut found = start;
        let mut fresh = start;
        while fresh != 0 {
            let more = members(fresh).fold(0, |more, fragment| more | self.joined[fragment]);
            fresh = more & within & !found;
            found |= fresh;
        }
        found
    }

    /// The parts that are left below a fragment on top of `part`, with their leaves; none where it can't stand there.
    fn left(&self, part: Part, top: usize, left: &mut Vec<(u8, Part)>) -> bool {
        left.clear();
        if self.above[top] & part != 0 {
            return false;
        }
        let within = part & !(1 << top);
        let mut met = 0;
        for leaf in (0..self.sheet.leaves.len()).filter(|&leaf| usize::from(self.sheet.owner[leaf]) == top) {
            let mut rest = self.under[leaf] & within;
            if rest & met != 0 {
                return false;
            }
            let before = met;
            while rest != 0 {
                let component = self.connected(rest & rest.wrapping_neg(), within);
                if component & before != 0 {
                    return false;
                }
                met |= component;
                rest &= !component;
                left.push((leaf as u8, component));
            }
        }
        true
    }

    /// The place of a connected part, which is split if it wasn't.
    fn part(&mut self, part: Part) -> Result<Place, Unsolvable> {
        if let Some(&place) = self.places.get(&part) {
            return Ok(place);
        }
        let mut splits = Vec::new();
        let mut left = Vec::new();
        for top in members(part) {
            if !self.left(part, top, &mut left) {
                continue;
            }
            let mut below = Vec::with_capacity(left.len());
            for &(leaf, component) in &left {
                below.push(Below { leaf, part: self.part(component)? });
            }
            let from = self.below.len() as u32;
            self.below.extend(below);
            splits.push(Split { top: top as u8, from, to: self.below.len() as u32 });
        }
        if splits.is_empty() {
            return Err(Unsolvable);
        }
        let place = self.splits.len() as Place;
        self.splits.push(splits);
        self.places.insert(part, place);
        Ok(place)
    }

    /// The places of the whole graph's parts.
    fn whole(&mut self) -> Result<Vec<Place>, Unsolvable> {
        let mut places = Vec::new();
        let mut rest: Part = members(!0).take(self.sheet.roots.len()).fold(0, |part, fragment| part | 1 << fragment);
        while rest != 0 {
            let component = self.connected(rest & rest.wrapping_neg(), rest);
            rest &= !component;
            places.push(self.part(component)?);
        }
        Ok(places)
    }
}

/// The readings, read off the chart.
struct Walk<'a, R> {
    chart: &'a Chart<'a>,
    fragments: usize,
    hanging: [u8; FRAGMENTS],
    /// Parts that are still to be hung.
    agenda: Vec<Below>,
    readings: &'a mut R,
}

impl<R: Readings> Walk<'_, R> {
    /// Leaves the agenda as it was.
    fn step(&mut self) {
        let Some(next) = self.agenda.pop() else {
            return self.readings.push(self.hanging[..self.fragments].iter().copied());
        };
        let chart = self.chart;
        let open = self.agenda.len();
        for split in &chart.splits[next.part as usize] {
            self.hanging[usize::from(split.top)] = next.leaf;
            self.agenda.extend_from_slice(&chart.below[split.from as usize..split.to as usize]);
            self.step();
            self.agenda.truncate(open);
            if self.readings.is_full() {
                break;
            }
        }
        self.agenda.push(next);
    }
}

/// The readings in the chart's order.
pub fn list(sheet: &Sheet, readings: &mut impl Readings) {
    let mut chart = Chart::new(sheet);
    if let Ok(whole) = chart.whole() {
        let agenda = whole.into_iter().map(|part| Below { leaf: TOP, part }).collect();
        let fragments = sheet.roots.len();
        Walk { chart: &chart, fragments, hanging: [TOP; FRAGMENTS], agenda, readings }.step();
    }
}

/// How many readings there are, without listing them.
pub fn count(sheet: &Sheet) -> u64 {
    let mut chart = Chart::new(sheet);
    let Ok(whole) = chart.whole() else {
        return 0;
    };
    // A part comes after the parts that it is split into.
    let mut counts: Vec<u64> = Vec::with_capacity(chart.splits.len());
    for splits in &chart.splits {
        let product = |split: &Split| {
            let below = &chart.below[split.from as usize..split.to as usize];
            below.iter().fold(1, |product: u64, below| product.saturating_mul(counts[below.part as usize]))
        };
        let count = splits.iter().fold(0, |sum: u64, split| sum.saturating_add(product(split)));
        counts.push(count);
    }
    whole.iter().fold(1, |product: u64, &part| product.saturating_mul(counts[part as usize]))
}
