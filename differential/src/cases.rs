//! The cases of documents 01 and 02, the counts of Section 9, and the ways of this crate against each other.
use crate::graph::{Edge, Graph};
use crate::labelling::random_labelled;
use crate::listing::{all, first, Leave};
use crate::placing::{check, Answers, TOP};
use crate::random::Random;
use crate::sheet::{read, table, tidy, write, written, DOMINANCE, TREE};
use crate::sheets::{bared, chain, near_overgrown, random_fork, random_graph, side_by_side, untidy, WIDE};
use crate::{brute, cycle, drawing, fragments, hypernormal, labelled, rule1};

fn graph(nodes: usize, tree: &[Edge], dominance: &[Edge]) -> Graph {
    read(&write(nodes, tree, dominance)).unwrap()
}

/// " root:leaf" for each hung root, as the printed list has them.
fn line(placing: &[u8]) -> String {
    let hung = placing.iter().enumerate().filter(|(_, &leaf)| leaf != TOP);
    hung.map(|(root, leaf)| format!(" {root}:{leaf}")).collect()
}

fn lines(graph: &Graph) -> Vec<String> {
    all(graph).iter().map(|placing| line(placing)).collect()
}

fn square() -> Graph {
    graph(8, &[(0, 1), (2, 3), (4, 5), (6, 7)], &[(1, 4), (1, 6), (3, 4), (3, 6)])
}

fn no_reading(graph: &Graph) -> bool {
    all(graph).is_empty() && !fragments::solvable(graph, &graph.dominance) && hypernormal::has_cycle(graph)
}

#[test]
fn short_sheets() {
    assert_eq!(read(&[]), Err(1));
    assert_eq!(read(&[0x05]), Err(2));
    assert_eq!(read(&[0x01, 0x00]), Err(3));
    assert_eq!(read(&[0x01, 0x01]), Err(1));
    assert_eq!(read(&[0x01, 0x81]), Err(3));
    assert_eq!(read(&[0x01, 0x80]), Err(1));
    assert_eq!(lines(&read(&[0x01, 0x02, 0x00]).unwrap()), [""]);
    assert_eq!(lines(&read(&[0x01, 0x02, 0x02, 0x00, 0x01, 0x00]).unwrap()), [""]);
}

#[test]
fn refusals_within_a_command_come_in_order() {
    assert_eq!(read(&[1]), Err(1));
    assert_eq!(read(&[0, 0]), Err(2));
    assert_eq!(read(&[1, 2, 1]), Err(2));
    assert_eq!(read(&[1, 2, 4, 9]), Err(2));
    assert_eq!(read(&[1, 2, 2, 9]), Err(1));
    assert_eq!(read(&[1, 2, 2, 9, 9]), Err(3));
    assert_eq!(read(&[1, 2, 2, 1, 1]), Err(4));
    assert_eq!(read(&[1, 3, 2, 0, 1, 2, 2, 1]), Err(4));
    assert_eq!(read(&[1, 2, 2, 0, 1, 0, 0]), Err(2));
}

#[test]
fn the_tests_of_the_whole_come_in_order() {
    assert_eq!(read(&[1, 3, 2, 0, 1, 2, 1, 0, 3, 1, 0, 0]), Err(4));
    assert_eq!(read(&[1, 3, 2, 0, 1, 3, 0, 1, 0]), Err(6));
    assert_eq!(read(&[1, 2, 2, 0, 1, 3, 0, 0, 0]), Err(6));
    assert_eq!(read(&[1, 2, 2, 0, 1, 3, 1, 1, 0]), Err(6));
}

#[test]
fn a_root_under_its_own_leaf() {
    let graph = graph(2, &[(0, 1)], &[(1, 0)]);
    assert!(no_reading(&graph));
    assert!(cycle::check(&graph, &[0, 2, 1, 3]));
}

#[test]
fn a_root_under_two_leaves_of_one_fragment() {
    let graph = graph(5, &[(0, 1), (0, 2), (3, 4)], &[(1, 3), (2, 3)]);
    assert!(no_reading(&graph));
    assert!(cycle::check(&graph, &[0, 2, 1, 3, 3, 3, 2, 2]));
}

#[test]
fn an_undirected_cycle_is_no_refusal() {
    let square = square();
    assert_eq!(lines(&square), [" 2:1 4:3 6:3", " 0:3 4:1 6:1"]);
    assert_eq!(line(&rule1::configuration(&square, &all(&square)[0])), " 2:1 4:3 6:5");
    assert!(!hypernormal::has_cycle(&square));
    assert!(!cycle::check(&square, &[1, 3, 4, 3, 3, 3, 6, 3]));
}

#[test]
fn the_chain_of_two() {
    let bytes = chain(2);
    let tree = [(0, 1), (0, 2), (3, 4), (3, 5), (6, 7), (8, 9), (10, 11)];
    assert_eq!(bytes, write(12, &tree, &[(1, 6), (2, 8), (4, 8), (5, 10)]));
    let graph = read(&bytes).unwrap();
    assert_eq!(lines(&graph), [" 3:2 6:1 8:4 10:5", " 0:4 6:1 8:2 10:5"]);
    assert_eq!(drawing::drawing(&graph, &all(&graph)[0]), "0(1[6(7)],2[3(4[8(9)],5[10(11)])])");
    assert_eq!(table(&graph), [[0, 1, 2], [3, 4, 2], [6, 7, 1], [8, 9, 1], [10, 11, 1]]);
}

#[test]
fn dominance_edges_up_to_255_pass() {
    // 128 nodes in 16 fragments of one root and 7 leaves.
    let tree: Vec<Edge> = (0..128).filter(|node| node % 8 != 0).map(|node| (node - node % 8, node)).collect();
    let dominance: Vec<Edge> = tree.iter().flat_map(|&(_, leaf)| (0..16).map(move |i| (leaf, 8 * i))).collect();
    assert_eq!(read(&write(128, &tree, &dominance[..255])).unwrap().dominance.len(), 255);
    assert_eq!(read(&write(128, &tree, &dominance[..256])), Err(8));
    let mut repeated = dominance[..255].to_vec();
    repeated.push(dominance[7]);
    assert_eq!(read(&write(128, &tree, &repeated)).unwrap().dominance.len(), 255);
    repeated.push(dominance[255]);
    assert_eq!(read(&write(128, &tree, &repeated)), Err(8));
}

/// Document 02, One.
#[test]
fn the_same_edge_twice() {
    let tree = [(0, 1), (2, 3)];
    let times = |times| write(4, &tree, &vec![(1, 2); times]);
    let once = read(&times(1)).unwrap();
    assert_eq!(tidy(&once), times(1));
    assert_eq!(lines(&once), [" 2:1"]);
    for repeats in [2, 679] {
        assert_eq!(read(&times(repeats)).as_ref(), Ok(&once));
    }
    assert_eq!((times(679).len(), times(680).len()), (2046, 2049));
    assert_eq!(read(&times(680)), Err(12));
    assert_eq!(read(&write(4, &tree, &[(0, 2), (0, 2)])), Err(6));
    assert_eq!(read(&write(4, &[(0, 1), (0, 1), (2, 3)], &[(1, 2)])), Err(4));
    assert_eq!(read(&[0; 2048]), Err(2));
    assert_eq!(read(&[0; 2049]), Err(12));
}

/// A sheet of bare nodes alone.
fn words(nodes: usize, dominance: &[Edge]) -> Vec<u8> {
    write(nodes, &[], dominance)
}

/// Document 02, Two.
#[test]
fn one_word_fragments() {
    for (nodes, text) in [(1, "0(1)"), (2, "0(2);1(3)")] {
        let graph = read(&words(nodes, &[])).unwrap();
        assert_eq!((graph.nodes(), lines(&graph)), (2 * nodes, vec![String::new()]));
        assert_eq!(drawing::drawing(&graph, &all(&graph)[0]), text);
    }
    assert_eq!(table(&read(&words(1, &[])).unwrap()), [[0, 1, 1]]);

    let graph = graph(4, &[(0, 1)], &[(1, 2), (1, 3)]);
    let reading = &all(&graph)[0];
    assert_eq!(lines(&graph), [" 2:1 3:1"]);
    assert_eq!(drawing::drawing(&graph, reading), "0(1[2(4);3(5)])");
    assert_eq!(rule1::configuration(&graph, reading), [TOP, TOP, 1, 4, TOP, TOP]);
    assert_eq!(table(&graph), [[0, 1, 1], [2, 4, 1], [3, 5, 1]]);
}

#[test]
fn no_reading_of_one_word_fragments() {
    let graph = graph(4, &[(0, 1), (0, 2)], &[(1, 3), (2, 3)]);
    assert!(no_reading(&graph));
    assert!(cycle::check(&graph, &[0, 2, 1, 3, 3, 3, 2, 2]));
}

#[test]
fn bare_nodes_are_refused_in_order() {
    assert_eq!(read(&words(64, &[])).map(|graph| all(&graph).len()), Ok(1));
    assert_eq!(read(&words(65, &[])), Err(13));
    assert_eq!(read(&words(64, &[(0, 0)])), Err(6));
    assert_eq!(read(&words(65, &[(0, 0)])), Err(13));
    assert_eq!(read(&write(67, &[(0, 1), (1, 0)], &[])), Err(4));
    assert_eq!(read(&write(66, &[(0, 1), (0, 2)], &[])), Err(13));
    assert_eq!(read(&write(65, &[(0, 1)], &[])).map(|graph| graph.nodes()), Ok(128));
    // An added leaf has no name in the sheet.
    assert_eq!(read(&words(2, &[(2, 1)])), Err(3));
}

/// The chain of two has node 11 whether it is written or not.
#[test]
fn an_added_leaf_is_like_a_written_one() {
    let tree = [(0, 1), (0, 2), (3, 4), (3, 5), (6, 7), (8, 9)];
    let bytes = write(11, &tree, &[(1, 6), (2, 8), (4, 8), (5, 10)]);
    assert_eq!(read(&bytes), read(&chain(2)));
    assert_eq!(tidy(&written(&bytes).unwrap()), bytes);

    let pairs = write(4, &[(0, 2), (1, 3)], &[]);
    assert_eq!(read(&words(2, &[])), read(&pairs));
    for bytes in [words(2, &[]), pairs] {
        assert_eq!(tidy(&written(&bytes).unwrap()), bytes);
    }
}

#[test]
fn baring_changes_numbers_alone() {
    let mut random = Random::new(7);
    let mut left_out = 0;
    for _ in 0..200 {
        let graph = random_graph(&mut random, 24);
        let bared = bared(&mut random, &graph);
        left_out += graph.nodes() - bared.nodes();
        let grown = bared.grown();
        assert_eq!(grown.nodes(), graph.nodes());
        assert_eq!(fragments::count(&grown, 5000), fragments::count(&graph, 5000));
    }
    assert!(left_out > 200, "{left_out}");
}

#[test]
fn some_grow_too_large() {
    let mut random = Random::new(8);
    let mut seen = [0, 0];
    for _ in 0..200 {
        let graph = near_overgrown(&mut random, &WIDE);
        let grown = graph.nodes() + graph.bare_nodes().len();
        assert!(graph.nodes() <= 128 && (126..=132).contains(&grown));
        let refused = read(&tidy(&graph)).map(|grown| grown.nodes());
        assert_eq!(refused, if grown <= 128 { Ok(grown) } else { Err(13) });
        seen[usize::from(grown > 128)] += 1;
    }
    assert!(seen[0] > 50 && seen[1] > 50, "{seen:?}");
}

/// The labelled sheet with these commands after the first, as it is handed back.
fn handed_back(nodes: u8, commands: &[&[u8]]) -> Result<Vec<u8>, u8> {
    labelled::written(&[&[1, nodes], &commands.concat()[..], &[0]].concat()).map(|graph| tidy(&graph))
}

/// Document 02, Three.
#[test]
fn labelled_sheets() {
    let [over, under, edge]: [&[u8]; 3] = [&[5, 0, 64], &[5, 1, 3], &[2, 0, 1]];
    assert_eq!(handed_back(1, &[&[5, 0, 7]]), Ok(vec![1, 1, 0]));
    assert_eq!(handed_back(2, &[over, under, edge, &[6]]), Ok(vec![1, 2, 2, 0, 1, 0]));
    assert_eq!(handed_back(2, &[&[6], edge, over, &[6]]), Ok(vec![1, 2, 2, 0, 1, 0]));
    assert_eq!(handed_back(2, &[over, edge]), Ok(vec![1, 2, 2, 0, 1, 0]));
    assert_eq!(handed_back(1, &[]), Err(16));
    assert_eq!(handed_back(1, &[over]), Err(14));
    assert_eq!(handed_back(2, &[over, under, edge]), Err(15));
    assert_eq!(handed_back(2, &[over, over, under, edge, &[6]]), Err(14));
    assert_eq!(handed_back(2, &[edge]), Err(14));
    assert_eq!(handed_back(2, &[&[5, 0, 3], &[5, 1, 4], &[6], &[3, 0, 1]]), Err(6));
    assert_eq!(handed_back(64, &[]), Err(16));
    assert_eq!(handed_back(65, &[]), Err(13));
    assert_eq!(handed_back(2, &[&[5, 2, 7]]), Err(3));
    for command in [0, 1, 4, 7, 17, 255] {
        assert_eq!(handed_back(2, &[&[command]]), Err(2));
    }
    assert_eq!(handed_back(1, &[&[5, 0, 7], &[6; 2042]]), Ok(vec![1, 1, 0]));
    assert_eq!(handed_back(1, &[&[5, 0, 7], &[6; 2043]]), Err(12));
}

#[test]
fn refusals_of_labels_come_in_order() {
    assert_eq!(labelled::written(&[5, 0, 7, 0]), Err(2));
    assert_eq!(labelled::written(&[6]), Err(2));
    assert_eq!(labelled::written(&[1, 2, 5]), Err(1));
    assert_eq!(labelled::written(&[1, 2, 5, 9]), Err(1));
    assert_eq!(labelled::written(&[1, 2, 5, 9, 9]), Err(3));
    assert_eq!(labelled::written(&[1, 2, 6]), Err(1));
    // No label fits, no two nodes differ, and there is an edge from a labelled leaf: each goes, and the next is told.
    let [edge, label, other, downward]: [&[u8]; 4] = [&[2, 0, 1], &[5, 1, 9], &[5, 2, 9], &[3, 1, 2]];
    assert_eq!(handed_back(3, &[edge, label, other, downward]), Err(14));
    assert_eq!(handed_back(3, &[edge, label, other, downward, &[5, 0, 64]]), Err(15));
    assert_eq!(handed_back(3, &[edge, label, other, downward, &[5, 0, 64], &[6]]), Err(16));
    assert_eq!(handed_back(3, &[edge, label, other, &[5, 0, 64], &[6]]), Ok(vec![1, 3, 2, 0, 1, 0]));
    assert_eq!(handed_back(3, &[edge, other, downward, &[5, 0, 64], &[6]]), Ok(vec![1, 3, 2, 0, 1, 3, 1, 2, 0]));
}

/// "Symbols 0 to 63 take no children, 64 to 127 one, 128 to 191 two, 192 to 255 three."
#[test]
fn symbols_take_children() {
    for symbol in 0..=255 {
        let takes = [0..=63, 64..=127, 128..=191, 192..=255].iter().position(|range| range.contains(&symbol));
        for children in 0..=4 {
            let edges: Vec<u8> = (1..=children).flat_map(|child| [2, 0, child]).collect();
            let given = handed_back(children + 1, &[&edges, &[5, 0, symbol]]);
            assert_eq!(given.is_ok(), takes == Some(children.into()), "{symbol}, {children}");
            assert!(given.is_ok() || given == Err(14));
        }
    }
}

/// Labels change nothing of the graph, no plain sheet has any, and no labelled sheet is without.
#[test]
fn labels_taken_out() {
    let mut random = Random::new(9);
    let mut seen = [0, 0];
    for _ in 0..400 {
        let mut sheet = random_labelled(&mut random);
        let bytes = sheet.bytes();
        sheet.commands.retain(|command| [TREE, DOMINANCE].contains(&command[0]));
        let plain = sheet.bytes();
        assert_eq!(labelled::written(&bytes), written(&plain));
        assert_eq!(written(&bytes), Err(2));
        assert!(labelled::written(&plain).is_err());
        seen[usize::from(written(&plain).is_err())] += 1;
    }
    assert!(seen[0] > 300 && seen[1] > 5, "{seen:?}");
}

#[test]
fn chains_have_as_many_readings_as_section_9_prints() {
    for (length, readings) in (2..).zip([2, 5, 14, 42, 132, 429, 1430]) {
        let graph = read(&chain(length)).unwrap();
        assert_eq!(all(&graph).len(), readings);
        assert_eq!(fragments::count(&graph, 1000), Some(readings as u64));
    }
}

#[test]
fn forks_have_as_many_readings_as_orders() {
    let mut random = Random::new(3);
    for (fragments, readings) in (1..).zip([1, 2, 6, 24, 120, 720]) {
        let graph = random_fork(&mut random, fragments);
        assert_eq!(all(&graph).len(), readings);
    }
}

#[test]
fn a_sheet_beside_another_multiplies_the_readings() {
    let graph = side_by_side(&[read(&chain(3)).unwrap(), square(), read(&chain(2)).unwrap()]);
    assert_eq!(read(&tidy(&graph)).unwrap(), graph);
    assert_eq!(all(&graph).len(), 20);
    assert_eq!(fragments::count(&graph, 1000), Some(20));
}

#[test]
fn tidying_twice_is_tidying_once() {
    let mut random = Random::new(4);
    for _ in 0..200 {
        let graph = random_graph(&mut random, 128);
        let graph = bared(&mut random, &graph);
        let bytes = untidy(&mut random, &graph);
        assert_eq!(written(&bytes).as_ref(), Ok(&graph));
        assert_eq!(written(&tidy(&graph)).as_ref(), Ok(&graph));
    }
}

/// Definitions taken as they stand, on all placings of tiny sheets, against the recursion and the guided check.
#[test]
fn brute_force_agrees() {
    let mut random = Random::new(5);
    let mut seen = [0, 0];
    for _ in 0..600 {
        let graph = random_graph(&mut random, 9);
        let graph = bared(&mut random, &graph).grown();
        if brute::placings(&graph) > 2500 {
            continue;
        }
        let solved = brute::solved_forms(&graph);
        let mut minimal: Vec<&[u8]> = brute::minimal(&solved).iter().map(|form| &form.placing[..]).collect();
        let listed = all(&graph);
        let mut sorted: Vec<&[u8]> = listed.iter().map(|placing| &placing[..]).collect();
        minimal.sort_unstable();
        sorted.sort_unstable();
        assert_eq!(sorted, minimal);
        assert_eq!(fragments::count(&graph, 1000), Some(listed.len() as u64));
        assert_eq!(fragments::solvable(&graph, &graph.dominance), !solved.is_empty());
        assert_eq!(hypernormal::has_cycle(&graph), solved.is_empty());
        for form in &solved {
            let answers = check(&graph, &form.placing);
            assert_eq!((answers.solved, answers.reading), (true, listed.contains(&form.placing)));
        }
        seen[usize::from(solved.is_empty())] += 1;
    }
    assert!(seen[0] > 50 && seen[1] > 50, "{seen:?}");
}

/// Section 8's recursion lists what Section 5's does, and the three tests of solvability agree.
#[test]
fn the_ways_agree_on_larger_sheets() {
    let mut random = Random::new(6);
    let mut compared = 0;
    for _ in 0..300 {
        let graph = random_graph(&mut random, 50);
        let solvable = fragments::solvable(&graph, &graph.dominance);
        assert_eq!(hypernormal::has_cycle(&graph), !solvable);
        let Ok(plain) = first(&graph, 200, Leave::Cyclic, 2000) else {
            continue;
        };
        assert_eq!(first(&graph, 200, Leave::Unsolvable, 2000), Ok(plain.clone()));
        assert_eq!(plain.is_empty(), !solvable);
        if plain.len() < 200 {
            assert_eq!(fragments::count(&graph, 5000), Some(plain.len() as u64));
        }
        for placing in plain.iter().take(20) {
            let configuration = rule1::configuration(&graph, placing);
            let answers = Answers { solved: true, configuration: crate::placing::is_matching(placing), reading: true };
            assert_eq!(check(&graph, placing), answers);
            assert!(check(&graph, &configuration).configuration);
        }
        compared += 1;
    }
    assert!(compared > 100, "{compared}");
}
