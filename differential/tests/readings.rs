//! The program `readings` from its input to what it writes, held against the second implementation: document 01's "The printed
//! list", with what document 02 says of repeats and of long inputs (One), of nodes without tree edges (Two) and of labels (Three).
//! `tools/build readings` makes the program.
use differential::listing::{self, Leave};
use differential::placing::hung;
use differential::random::Random;
use differential::{sheet, sheets, LAST};
use std::fmt::Write as _;
use std::io::Write as _;
use std::os::fd::OwnedFd;
use std::os::unix::net::UnixDatagram;
use std::path::PathBuf;
use std::process::{Child, Command, Stdio};
use std::time::Duration;

/// The program, started.
fn spawn(out: Stdio) -> Child {
    let program = PathBuf::from(env!("CARGO_MANIFEST_DIR")).join("../target/bin/readings");
    Command::new(&program).stdin(Stdio::piped()).stdout(out).spawn().expect("tools/build readings makes it")
}

/// The program, started on this input.
fn start(input: &[u8], out: Stdio) -> Child {
    let mut child = spawn(out);
    // The program reads no more than tells.
    let _ = child.stdin.take().unwrap().write_all(input);
    child
}

/// What the program writes on this input.
fn run(input: &[u8]) -> String {
    String::from_utf8(start(input, Stdio::piped()).wait_with_output().unwrap().stdout).unwrap()
}

/// The same page by page: a socket for datagrams keeps what is written at once apart.
fn pages(input: &[u8]) -> Vec<String> {
    let (ours, theirs) = UnixDatagram::pair().unwrap();
    ours.set_read_timeout(Some(Duration::from_millis(20))).unwrap();
    let mut child = start(input, OwnedFd::from(theirs).into());
    let mut pages = Vec::new();
    let mut bytes = vec![0; 1 << 20];
    loop {
        let ended = child.try_wait().unwrap().is_some();
        match ours.recv(&mut bytes) {
            Ok(length) => pages.push(String::from_utf8(bytes[..length].to_vec()).unwrap()),
            Err(_) if ended => return pages,
            Err(_) => {}
        }
    }
}

/// What the documents say that it writes.
fn printed(input: &[u8]) -> String {
    let graph = match sheet::read(input) {
        Ok(graph) => graph,
        Err(number) => return format!("refused {number}\n"),
    };
    let readings = listing::first(&graph, LAST as usize + 1, Leave::Unsolvable, usize::MAX).unwrap();
    let mut text = match readings.len() as u64 {
        0 => return "refused 9\n".to_string(),
        count if count > LAST => "readings more than 65535\n".to_string(),
        count => format!("readings {count}\n"),
    };
    for (number, placing) in (1..=LAST).zip(&readings) {
        write!(text, "{number}").unwrap();
        let mut roots: Vec<_> = hung(placing).map(|(leaf, root)| (root, leaf)).collect();
        roots.sort_unstable();
        for (root, leaf) in roots {
            write!(text, " {root}:{leaf}").unwrap();
        }
        text.push('\n');
    }
    text
}

/// The program and the document say the same, and it begins so.
fn agree(input: &[u8], begins: &str) {
    let wanted = printed(input);
    assert!(wanted.starts_with(begins), "{begins:?} is not how {:?} begins", wanted.lines().next());
    let given = run(input);
    if let Some((line, (given, wanted))) =
        given.lines().zip(wanted.lines()).enumerate().find(|(_, (given, wanted))| given != wanted)
    {
        panic!("line {}: {given:?}, not {wanted:?}", line + 1);
    }
    assert_eq!(given.len(), wanted.len());
}

const CHAIN_OF_TWO: &str = "readings 2\n1 3:2 6:1 8:4 10:5\n2 0:4 6:1 8:2 10:5\n";

#[test]
fn the_chain_of_two() {
    assert_eq!(run(&sheets::chain(2)), CHAIN_OF_TWO);
    agree(&sheets::chain(2), CHAIN_OF_TWO);
}

/// As many fragments of two nodes, and these dominance edges.
fn pairs(fragments: usize, dominance: &[(usize, usize)]) -> Vec<u8> {
    let tree: Vec<_> = (0..fragments).map(|i| (2 * i, 2 * i + 1)).collect();
    sheet::write(2 * fragments, &tree, dominance)
}

#[test]
fn each_refusal() {
    agree(&[], "refused 1\n");
    agree(&[5], "refused 2\n");
    agree(&[1, 0], "refused 3\n");
    agree(&[1, 2, 2, 0, 0, 0], "refused 4\n");
    agree(&pairs(2, &[(0, 2)]), "refused 6\n");
    let many: Vec<_> = (0..16).flat_map(|leaf| (16..32).map(move |root| (2 * leaf + 1, 2 * root))).collect();
    agree(&pairs(32, &many), "refused 8\n");
    agree(&pairs(1, &[(1, 0)]), "refused 9\n");
    agree(&[0; 5000], "refused 12\n");
    agree(&[1, 65, 0], "refused 13\n");
}

#[test]
fn one_word_fragments() {
    agree(&[1, 1], "refused 1\n");
    for nodes in [1, 2, 64] {
        assert_eq!(run(&[1, nodes, 0]), "readings 1\n1\n");
        agree(&[1, nodes, 0], "readings 1\n1\n");
    }
    agree(&sheet::write(4, &[(0, 1)], &[(1, 2), (1, 3)]), "readings 1\n1 2:1 3:1\n");
    agree(&sheet::write(4, &[(0, 1), (0, 2)], &[(1, 3), (2, 3)]), "refused 9\n");
    let tree = [(0, 1), (0, 2), (3, 4), (3, 5), (6, 7), (8, 9)];
    agree(&sheet::write(11, &tree, &[(1, 6), (2, 8), (4, 8), (5, 10)]), CHAIN_OF_TWO);
    agree(&sheet::write(65, &[], &[(0, 0)]), "refused 13\n");
    agree(&sheet::write(64, &[], &[(0, 0)]), "refused 6\n");
    agree(&sheet::write(67, &[(0, 1), (1, 0)], &[]), "refused 4\n");
    // The added leaf cannot be named.
    agree(&sheet::write(2, &[], &[(2, 1)]), "refused 3\n");
}

/// Those have a call of their own.
#[test]
fn labelled_sheets() {
    agree(&[1, 1, 5, 0, 7, 0], "refused 2\n");
    agree(&[1, 1, 5], "refused 2\n");
    agree(&[1, 1, 6, 0], "refused 2\n");
}

#[test]
fn the_same_edge_twice() {
    agree(&pairs(2, &[(1, 2), (1, 2)]), "readings 1\n1 2:1\n");
    agree(&pairs(2, &[(0, 2), (0, 2)]), "refused 6\n");
    agree(&sheet::write(4, &[(0, 1), (0, 1), (2, 3)], &[(1, 2)]), "refused 4\n");
}

/// Line 1, and then one page of lines, two of them, or three.
#[test]
fn page_by_page() {
    let chain = |length| sheet::read(&sheets::chain(length)).unwrap();
    let beside = sheet::tidy(&sheets::side_by_side(&[chain(7), chain(2)]));
    for (input, count, of_lines) in [(sheets::chain(7), 429, 1), (beside, 2 * 429, 2), (sheets::chain(8), 1430, 3)] {
        let pages = pages(&input);
        assert_eq!(pages[0], format!("readings {count}\n"));
        assert_eq!(pages.len(), 1 + of_lines);
        assert!(pages.concat() == printed(&input), "the list of {count} readings");
    }
}

/// Lists of one page, of several, and where the placings are filled again.
#[test]
fn chains() {
    for (length, count) in [(3, 5), (7, 429), (8, 1430), (9, 4862), (10, 16796)] {
        agree(&sheets::chain(length), &format!("readings {count}\n"));
    }
}

/// Nine fragments above one: 9! readings.
#[test]
fn more_than_there_are_numbers() {
    let above: Vec<_> = (0..9).map(|i| (2 * i + 1, 18)).collect();
    agree(&pairs(10, &above), "readings more than 65535\n1 ");
}

/// 2,049 bytes tell: a sheet as long as may be, the same with bytes after it, and one that is too long, whole or cut.
#[test]
fn inputs_of_2048_bytes_and_more() {
    let mut long = pairs(2, &[(1, 2); 679]);
    agree(&long, "readings 1\n1 2:1\n");
    for length in [2047, 2048] {
        long.resize(length, 0);
        agree(&long, "refused 2\n");
    }
    let longer = pairs(2, &[(1, 2); 680]);
    agree(&longer[..2048], "refused 1\n");
    agree(&longer, "refused 12\n");
    for length in [2049, 2050, 100_000] {
        long.resize(length, 0);
        agree(&long, "refused 12\n");
        agree(&vec![0; length], "refused 12\n");
    }
    agree(&[0; 2048], "refused 2\n");
}

/// The program answers, and is gone before it was given all of this.
#[test]
fn an_input_without_end() {
    let mut child = spawn(Stdio::piped());
    let mut input = child.stdin.take().unwrap();
    let taken = (0..1000).take_while(|_| input.write_all(&[0; 65536]).is_ok()).count();
    assert!(taken < 1000, "{taken} times 65,536 bytes were taken");
    assert_eq!(child.wait_with_output().unwrap().stdout, b"refused 12\n");
}

#[test]
fn random_sheets() {
    for seed in 0..150 {
        let mut random = Random::new(seed);
        let graph = sheets::random_graph(&mut random, 24);
        agree(&sheets::untidy(&mut random, &graph), "re");
        let bared = sheets::bared(&mut random, &graph);
        agree(&sheets::untidy(&mut random, &bared), "re");
    }
}
