//! Sheets with about 65,535 readings: where "more" begins.
use super::calls::Caller;
use super::difference::unhex;
use super::known::Accepted;
use super::trial::known;
use super::{terms, Difference, Tally};
use differential::graph::Graph;
use differential::labelling::{symbol_apart, with_labels};
use differential::random::Random;
use differential::sheets::{bared, chain, random_fork, side_by_side};
use differential::{sheet, DRAWING, LAST, TERM};

/// Sheets with so many readings, found among random ones.
const READINGS_85: &str = "0115020403021105020006020e08020f0a02040b02070c02010d021210020213020914\
    03050e030809030b12030c0f030d0003100103100f03131103140100";
const READINGS_217: &str = "0124020b00020c01021c02021d0402190502120702080a02150e0209110206130210160\
    20f17020d1802031a02141e021f20022221021b2303020803020d030212030214030219030408030414030419030422\
    03070d030710030a1f030e0d03171003171203171403171503171903211403230d00";
const READINGS_302: &str = "0124021601021e02020003022105022206021b07020b08020d09020a0c021f0f020e110\
    21012021d1302191702041802141a02201c02152303010003010e030204030921030c2103110a03121403121b03121d\
    03122003171603180b03181903181f031a0b031a2203231600";
const READINGS_771: &str = "0120021400020e01021b04020206020807020d0b02050c021a0f0219100209120211130\
    20315021617021c18020a1d021e1f030019030116030408030616030b11030c02030c03030c1b030f1403121103150d\
    03171a03181e031d1b031f1100";

/// Sheets with 65,534, 65,535, 65,536 and 208,012 readings.
pub fn sheets(random: &mut Random) -> Vec<Vec<u8>> {
    let beside = |parts: [&str; 2]| {
        let graphs: Vec<Graph> = parts.iter().filter_map(|part| sheet::read(&unhex(part)?).ok()).collect();
        sheet::tidy(&side_by_side(&graphs))
    };
    let forks: Vec<Graph> = (0..16).map(|_| random_fork(random, 2)).collect();
    let power = side_by_side(&forks);
    let power = sheet::tidy(&bared(random, &power));
    vec![beside([READINGS_217, READINGS_302]), beside([READINGS_771, READINGS_85]), power, chain(12)]
}

/// The same with labels.
pub fn labelled_sheets(random: &mut Random) -> Vec<Vec<u8>> {
    let graphs: Vec<Graph> = sheets(random).iter().filter_map(|bytes| sheet::written(bytes).ok()).collect();
    graphs.iter().map(|graph| with_labels(random, graph, symbol_apart).bytes()).collect()
}

/// The terms of the readings around the last number.
pub fn try_deep_terms(random: &mut Random, bytes: &[u8]) -> Result<Tally, Difference> {
    let known = known(bytes, LAST as usize + 1)?;
    let Accepted { constraint, .. } = known.labelled.as_ref().map_err(|number| Difference {
        sheet: bytes.to_vec(),
        call: "none: a sheet with many readings".to_string(),
        wanted: "labels that are accepted".to_string(),
        given: format!("refused {number}"),
    })?;
    let mut caller = Caller::new(&known, random);
    for number in [LAST - 1, LAST, LAST + 1] {
        let text = caller.term(number, TERM)?;
        if !text.is_empty() {
            terms::held(&mut caller, constraint, &text)?;
        }
    }
    Ok(caller.tally)
}

/// The count, the whole list, and the readings around the last number.
pub fn try_deep(random: &mut Random, bytes: &[u8]) -> Result<Tally, Difference> {
    let known = known(bytes, LAST as usize + 1)?;
    let mut caller = Caller::new(&known, random);
    caller.nodes()?;
    caller.count()?;
    // The whole list, and room for one more.
    caller.fill(0, (LAST as usize + 1) * known.room() / 2)?;
    for place in [LAST - 1, LAST] {
        caller.reading(place, known.room())?;
        caller.drawing(place + 1, DRAWING)?;
    }
    Ok(caller.tally)
}

#[cfg(test)]
mod tests {
    use differential::{fragments, labelled, random::Random, sheet};

    #[test]
    fn the_sheets_have_as_many_readings_as_they_should() {
        let counts: Vec<Option<u64>> = super::sheets(&mut Random::new(1))
            .iter()
            .map(|bytes| fragments::count(&sheet::read(bytes).unwrap(), 100_000))
            .collect();
        assert_eq!(counts, [65_534, 65_535, 65_536, 208_012].map(Some));
    }

    #[test]
    fn so_do_those_with_labels() {
        let counts: Vec<Option<u64>> = super::labelled_sheets(&mut Random::new(1))
            .iter()
            .map(|bytes| fragments::count(&labelled::written(bytes).unwrap().grown(), 100_000))
            .collect();
        assert_eq!(counts, [65_534, 65_535, 65_536, 208_012].map(Some));
    }
}
