//! The program as a person calls it: what it prints, and how it ends.
use std::io::Write;
use std::path::PathBuf;
use std::process::{Child, Command, Stdio};

fn spawn(words: &[&str]) -> Child {
    Command::new(env!("CARGO_BIN_EXE_bixtogan"))
        .args(words)
        .stdin(Stdio::piped())
        .stdout(Stdio::piped())
        .stderr(Stdio::null())
        .spawn()
        .unwrap()
}

/// What the program writes and its exit status.
fn ended(child: Child) -> (Vec<u8>, i32) {
    let output = child.wait_with_output().unwrap();
    (output.stdout, output.status.code().unwrap())
}

/// The same for these words and this standard input.
fn bytes(words: &[&str], input: &[u8]) -> (Vec<u8>, i32) {
    let mut child = spawn(words);
    // A program that only shows its usage does not read.
    let _ = child.stdin.take().unwrap().write_all(input);
    ended(child)
}

fn run(words: &[&str], input: &[u8]) -> (String, i32) {
    let (out, status) = bytes(words, input);
    (String::from_utf8(out).unwrap(), status)
}

fn repository(name: &str) -> PathBuf {
    PathBuf::from(env!("CARGO_MANIFEST_DIR")).join("..").join(name)
}

fn sample(name: &str) -> Vec<u8> {
    std::fs::read(repository("samples").join(name)).unwrap()
}

/// A file that holds this text, for the checks.
fn file(name: &str, text: &str) -> String {
    let path = PathBuf::from(env!("CARGO_TARGET_TMPDIR")).join(name);
    std::fs::write(&path, text).unwrap();
    path.to_str().unwrap().to_string()
}

fn done(text: &str) -> (String, i32) {
    (text.to_string(), 0)
}

fn refused(text: &str) -> (String, i32) {
    (text.to_string(), 1)
}

/// k fragments with two leaves each, as 01's chain of two goes on.
fn chain(k: u8) -> Vec<u8> {
    let mut sheet = vec![1, 5 * k + 2];
    for i in 0..k {
        sheet.extend([2, 3 * i, 3 * i + 1, 2, 3 * i, 3 * i + 2]);
    }
    for i in 0..=k {
        sheet.extend([2, 3 * k + 2 * i, 3 * k + 2 * i + 1]);
    }
    for i in 0..k {
        sheet.extend([3, 3 * i + 1, 3 * k + 2 * i, 3, 3 * i + 2, 3 * k + 2 * i + 2]);
    }
    sheet.push(0);
    sheet
}

#[test]
fn the_chain_of_two() {
    let sheet = sample("chain-of-two.sheet");
    let list = std::fs::read_to_string(repository("crates/readings/stdout")).unwrap();
    assert_eq!(run(&["list"], &sheet), done(&list));
    assert_eq!(run(&["count"], &sheet), done("readings 2\n"));
    assert_eq!(run(&["reading", "2"], &sheet), done("2 0:4 6:1 8:2 10:5\n"));
    assert_eq!(run(&["draw", "1"], &sheet), done("0(1[6(7)],2[3(4[8(9)],5[10(11)])])\n"));
    assert_eq!(run(&["fragments"], &sheet), done("0 1 2\n3 4 2\n6 7 1\n8 9 1\n10 11 1\n"));
}

// README's first screen: "every" above "a", then "a" above "every".
#[test]
fn every_linguist_reads_a_paper() {
    let (sheet, status) = bytes(&["encode"], &sample("every-linguist.txt"));
    assert_eq!(status, 0);
    assert_eq!(run(&["list"], &sheet), done("readings 2\n1 3:2 6:5\n2 0:5 6:2\n"));
}

#[test]
fn a_chain_is_counted_and_listed() {
    // 000, Section 9.
    for (k, readings) in [(3, 5), (4, 14), (8, 1430)] {
        let (text, status) = run(&["list"], &chain(k));
        assert_eq!(status, 0);
        assert_eq!(text.lines().next(), Some(format!("readings {readings}").as_str()));
        assert_eq!(text.lines().count(), 1 + readings);
    }
}

#[test]
fn more_than_can_be_listed() {
    // Catalan's 12th number is 208,012.
    let (text, status) = run(&["list"], &chain(12));
    assert_eq!(status, 0);
    assert_eq!(text.lines().next(), Some("readings more than 65535"));
    assert_eq!(text.lines().count(), 1 + 65_535);
}

#[test]
fn a_configuration_of_the_square() {
    let sheet = sample("square.sheet");
    assert_eq!(run(&["configuration"], &sheet), done("configuration 2:1 4:3 6:5\n"));
}

#[test]
fn a_cycle_is_shown_and_checked() {
    let sheet = sample("loop.sheet");
    let (text, status) = run(&["configuration"], &sheet);
    assert_eq!(status, 1);
    let cycle = text.strip_prefix("refused 9\ncycle ").unwrap();
    assert_eq!(run(&["check-cycle", &file("cycle", cycle)], &sheet), done("yes\n"));
    assert_eq!(run(&["check-cycle", &file("none", "0 2 1 2")], &sheet), done("no\n"));
    assert_eq!(run(&["list"], &sheet), refused("refused 9\n"));
    let (picture, _) = run(&["dot"], &sheet);
    assert!(picture.contains("0 -> 1 [style=solid, color=red"));
    assert!(picture.contains("1 -> 0 [style=dashed, color=red"));
}

#[test]
fn placings_are_checked() {
    let sheet = sample("chain-of-two.sheet");
    let reading = file("reading", "3:2 6:1 8:4 10:5\n");
    let no_solved_form = file("no-solved-form", "");
    assert_eq!(run(&["check-placing", &reading], &sheet), done("solved form yes\nconfiguration yes\nreading yes\n"));
    assert_eq!(
        run(&["check-placing", &no_solved_form], &sheet),
        done("solved form no\nconfiguration no\nreading no\n")
    );
}

#[test]
fn text_and_bytes() {
    for name in [
        "chain-of-two",
        "every-linguist",
        "every-linguist-labelled",
        "every-linguist-term",
        "fork",
        "loop",
        "one-fragment",
        "one-word-fragments",
        "square",
    ] {
        let sheet = sample(&format!("{name}.sheet"));
        let (text, status) = run(&["decode"], &sheet);
        assert_eq!(status, 0);
        assert_eq!(bytes(&["encode"], text.as_bytes()), (sheet.clone(), 0));
        assert_eq!(bytes(&["encode"], &sample(&format!("{name}.txt"))), (sheet, 0));
    }
}

#[test]
fn tidy_is_by_child_and_by_leaf() {
    let untidy = [1, 4, 3, 3, 0, 2, 2, 3, 2, 0, 1, 0];
    assert_eq!(run(&["tidy"], &untidy), done("nodes 4\ntree 0 1\ntree 2 3\ndom 3 0\n"));
    assert_eq!(bytes(&["tidy", "--bytes"], &untidy), (vec![1, 4, 2, 0, 1, 2, 2, 3, 3, 3, 0, 0], 0));
    assert_eq!(bytes(&["tidy", "--bytes"], &[1, 1]), (b"refused 1\n".to_vec(), 1));
}

/// Two fragments of two nodes, and the dominance edge from 1 to 2 so many times.
fn repeating(times: usize) -> Vec<u8> {
    [&[1, 4, 2, 0, 1, 2, 2, 3], &[3, 1, 2].repeat(times)[..], &[0]].concat()
}

// 02, One.
#[test]
fn the_same_edge_twice() {
    let sheet = repeating(2);
    assert_eq!(run(&["list"], &sheet), done("readings 1\n1 2:1\n"));
    assert_eq!(run(&["tidy"], &sheet), done("nodes 4\ntree 0 1\ntree 2 3\ndom 1 2\n"));
    assert_eq!(run(&["decode"], &sheet), done("nodes 4\ntree 0 1\ntree 2 3\ndom 1 2\ndom 1 2\n"));
    let (picture, _) = run(&["dot"], &sheet);
    assert_eq!(picture.matches("dashed").count(), 1);
    assert_eq!(run(&["list"], &repeating(679)), done("readings 1\n1 2:1\n"));
    assert_eq!(run(&["list"], &repeating(680)), refused("refused 12\n"));
}

/// One fragment with the leaf 1, and the words 2 and 3 below it.
const BELOW_ONE_LEAF: [u8; 12] = [1, 4, 2, 0, 1, 3, 1, 2, 3, 1, 3, 0];

// 02, Two.
#[test]
fn one_word_fragments() {
    let (one, status) = bytes(&["encode"], b"nodes 1\n");
    assert_eq!((&one[..], status), (&[1, 1, 0][..], 0));
    assert_eq!(run(&["nodes"], &one), done("2\n"));
    assert_eq!(run(&["list"], &one), done("readings 1\n1\n"));
    assert_eq!(run(&["draw", "1"], &one), done("0(1)\n"));
    assert_eq!(run(&["fragments"], &one), done("0 1 1\n"));
    assert_eq!(run(&["tidy"], &one), done("nodes 1\n"));
    assert_eq!(run(&["decode"], &one), done("nodes 1\n"));
    assert_eq!(run(&["nodes"], &[1, 2, 0]), done("4\n"));
    assert_eq!(run(&["draw", "1"], &[1, 2, 0]), done("0(2);1(3)\n"));

    let sheet = BELOW_ONE_LEAF;
    assert_eq!(run(&["nodes"], &sheet), done("6\n"));
    assert_eq!(run(&["list"], &sheet), done("readings 1\n1 2:1 3:1\n"));
    assert_eq!(run(&["reading", "1"], &sheet), done("1 2:1 3:1\n"));
    assert_eq!(run(&["configuration"], &sheet), done("configuration 2:1 3:4\n"));
    assert_eq!(run(&["draw", "1"], &sheet), done("0(1[2(4);3(5)])\n"));
    assert_eq!(run(&["fragments"], &sheet), done("0 1 1\n2 4 1\n3 5 1\n"));
    assert_eq!(run(&["tidy"], &sheet), done("nodes 4\ntree 0 1\ndom 1 2\ndom 1 3\n"));
    // A root may hang under an added leaf.
    let configured = file("configured", "2:1 3:4\n");
    assert_eq!(run(&["check-placing", &configured], &sheet), done("solved form yes\nconfiguration yes\nreading no\n"));
}

#[test]
fn the_chain_of_two_with_a_word_at_its_end() {
    let chain = sample("chain-of-two.sheet");
    // Node 11 is added where it is not written.
    let mut sheet = chain.clone();
    sheet[1] = 11;
    let edge = sheet.windows(3).position(|command| command == [2, 10, 11]).unwrap();
    sheet.drain(edge..edge + 3);
    for words in [&["list"][..], &["draw", "1"], &["draw", "2"], &["nodes"], &["configuration"], &["fragments"]] {
        assert_eq!(run(words, &sheet), run(words, &chain), "{words:?}");
    }
    let list = std::fs::read_to_string(repository("crates/readings/stdout")).unwrap();
    assert_eq!(run(&["list"], &sheet), done(&list));
}

#[test]
fn one_graph_and_two_tidy_sheets() {
    let pairs = [1, 4, 2, 0, 2, 2, 1, 3, 0];
    for words in [&["list"][..], &["draw", "1"], &["nodes"], &["fragments"]] {
        assert_eq!(run(words, &[1, 2, 0]), run(words, &pairs), "{words:?}");
    }
    assert_eq!(run(&["tidy"], &[1, 2, 0]), done("nodes 2\n"));
    assert_eq!(run(&["tidy"], &pairs), done("nodes 4\ntree 0 2\ntree 1 3\n"));
}

#[test]
fn pictures_have_added_leaves() {
    let (picture, status) = run(&["dot"], &BELOW_ONE_LEAF);
    assert_eq!(status, 0);
    for line in ["0 -> 1", "2 -> 4", "3 -> 5"] {
        assert!(picture.contains(&format!("  {line} [style=solid];\n")), "{line}");
    }
    let (reading, _) = run(&["dot", "1"], &BELOW_ONE_LEAF);
    for line in ["1 -> 2 [style=bold]", "2 -> 4 [style=solid]", "1 -> 3 [style=bold]", "3 -> 5 [style=solid]"] {
        assert!(reading.contains(&format!("  {line};\n")), "{line}");
    }
    // Two leaves of one fragment above a word: no reading, and no added leaf is on the cycle.
    let fork = [1, 4, 2, 0, 1, 2, 0, 2, 3, 1, 3, 3, 2, 3, 0];
    let (picture, _) = run(&["dot"], &fork);
    assert_eq!(picture.matches("color=red").count(), 4);
    assert!(picture.contains("  3 -> 4 [style=solid];\n"));
    let cycle = file("cycle-of-words", "0 2 1 3 3 3 2 2");
    assert_eq!(run(&["check-cycle", &cycle], &fork), done("yes\n"));
    assert_eq!(run(&["list"], &fork), refused("refused 9\n"));
}

#[test]
fn sheets_that_grow_too_large() {
    assert_eq!(run(&["nodes"], &[1, 64, 0]), done("128\n"));
    assert_eq!(run(&["list"], &[1, 64, 0]), done("readings 1\n1\n"));
    assert_eq!(run(&["nodes"], &[1, 65, 0]), refused("refused 13\n"));
    assert_eq!(run(&["list"], &[1, 65, 0]), refused("refused 13\n"));
    assert_eq!(run(&["decode"], &[1, 65, 0]), refused("nodes 65\n# refused 13\n"));
    assert_eq!(run(&["list"], &[1, 65, 3, 0, 0, 0]), refused("refused 13\n"));
    assert_eq!(run(&["list"], &[1, 64, 3, 0, 0, 0]), refused("refused 6\n"));
    assert_eq!(run(&["list"], &[1, 67, 2, 0, 1, 2, 1, 0, 0]), refused("refused 4\n"));
}

// 02, Three.
#[test]
fn labelled_sheets() {
    for (sheet, text) in [
        (&[1, 1, 5, 0, 7, 0][..], "nodes 1\n"),
        (&[1, 2, 5, 0, 64, 5, 1, 3, 2, 0, 1, 6, 0], "nodes 2\ntree 0 1\n"),
        // A hole, and a dominance edge from it, twice; 6 is repeated as well.
        (&[1, 3, 6, 3, 1, 2, 2, 0, 1, 5, 2, 63, 3, 1, 2, 5, 0, 127, 6, 0], "nodes 3\ntree 0 1\ndom 1 2\n"),
    ] {
        assert_eq!(run(&["labelled"], sheet), done(text));
    }
    for (sheet, text) in [
        (&[1, 1, 0][..], "refused 16\n"),
        (&[1, 1, 5, 0, 64, 0], "refused 14\n"),
        (&[1, 2, 5, 0, 64, 5, 1, 3, 2, 0, 1, 0], "refused 15\n"),
        (&[1, 2, 5, 0, 64, 5, 0, 64, 2, 0, 1, 6, 0], "refused 14\n"),
        (&[1, 2, 2, 0, 1, 0], "refused 14\n"),
        (&[1, 2, 5, 0, 3, 5, 1, 4, 6, 3, 0, 1, 0], "refused 6\n"),
        (&[1, 65, 0], "refused 13\n"),
        (&[1, 64, 0], "refused 16\n"),
        (&[1, 1, 5, 1, 7, 0], "refused 3\n"),
        (&[1, 1, 5, 0, 7, 4, 0, 0], "refused 2\n"),
        (&[17, 1, 5, 0, 7, 0], "refused 2\n"),
        (&[1, 1, 5, 0], "refused 1\n"),
    ] {
        assert_eq!(run(&["labelled"], sheet), refused(text), "{sheet:?}");
    }
}

#[test]
fn every_linguist_with_labels() {
    let (labelled, status) = bytes(&["encode"], &sample("every-linguist-labelled.txt"));
    assert_eq!(status, 0);
    let (text, status) = run(&["labelled"], &labelled);
    assert_eq!(status, 0);
    assert_eq!(bytes(&["encode"], text.as_bytes()), (sample("every-linguist.sheet"), 0));
    assert_eq!(bytes(&["labelled", "--bytes"], &labelled), (sample("every-linguist.sheet"), 0));
    for words in [&["list"][..], &["count"], &["nodes"], &["reading", "1"], &["configuration"], &["draw", "1"]] {
        assert_eq!(run(words, &labelled), refused("refused 2\n"), "{words:?}");
    }
    for words in [&["tidy"][..], &["fragments"], &["dot"], &["dot", "1"]] {
        assert_eq!(run(words, &labelled), refused("refused 2\n"), "{words:?}");
    }
}

/// 70 and 80, each over a hole that 9 stands below.
const EITHER: &str = "nodes 5
label 0 70\ntree 0 1
label 2 80\ntree 2 3
label 4 9
dom 1 4\ndom 3 4
differ
";

// 02, Five.
#[test]
fn terms() {
    for (text, term) in [
        ("nodes 1\nlabel 0 7\n", "7\n"),
        ("nodes 2\nlabel 0 7\nlabel 1 9\ndiffer\n", "128(7,9)\n"),
        ("nodes 3\nlabel 0 9\nlabel 1 8\nlabel 2 7\ndiffer\n", "128(9,128(8,7))\n"),
        ("nodes 2\nlabel 0 64\ntree 0 1\n", "64(0)\n"),
        ("nodes 3\nlabel 0 64\ntree 0 1\nlabel 2 5\ndom 1 2\ndiffer\n", "64(128(5,0))\n"),
        // Children come in the order of their lines.
        ("nodes 4\nlabel 0 129\ntree 0 2\ntree 0 1\nlabel 2 9\nlabel 3 5\ndom 1 3\ndiffer\n", "129(9,128(5,0))\n"),
        (EITHER, "70(128(80(128(9,0)),0))\n"),
    ] {
        let (sheet, status) = bytes(&["encode"], text.as_bytes());
        assert_eq!(status, 0);
        assert_eq!(run(&["term", "1"], &sheet), done(term), "{text}");
        assert_eq!(run(&["term", "0"], &sheet), refused("refused 11\n"), "{text}");
    }
    // The symbol 128 below a hole that becomes one.
    let sheet = [1, 6, 5, 0, 64, 2, 0, 1, 5, 2, 128, 2, 2, 3, 2, 2, 4, 5, 3, 4, 5, 5, 6, 3, 1, 2, 3, 1, 5, 6, 0];
    assert_eq!(run(&["term", "1"], &sheet), done("64(128(128(4,0),6))\n"));
    assert_eq!(run(&["term", "2"], &sheet), refused("refused 11\n"));
}

#[test]
fn both_terms_of_an_ambiguous_sheet() {
    let (sheet, _) = bytes(&["encode"], EITHER.as_bytes());
    assert_eq!(run(&["term", "2"], &sheet), done("80(128(70(128(9,0)),0))\n"));
    for number in ["0", "3", "65535", "65536", "18446744073709551615"] {
        assert_eq!(run(&["term", number], &sheet), refused("refused 11\n"), "{number}");
    }
    // As samples/README.md prints them: "every" above "a", then "a" above "every".
    let sheet = sample("every-linguist-term.sheet");
    assert_eq!(run(&["term", "1"], &sheet), done("129(1,128(130(2,128(131(3,4),0)),0))\n"));
    assert_eq!(run(&["term", "2"], &sheet), done("130(2,128(129(1,128(131(3,4),0)),0))\n"));
    assert_eq!(run(&["term", "3"], &sheet), refused("refused 11\n"));
}

#[test]
fn sheets_without_terms() {
    for (sheet, text) in [
        // A hole above its own root: no reading, and no cycle is printed.
        (&[1, 2, 5, 0, 64, 2, 0, 1, 3, 1, 0, 0][..], "refused 9\n"),
        (&[1, 1, 5, 0, 64, 0], "refused 14\n"),
        (&[1, 2, 5, 0, 7, 5, 1, 9, 0], "refused 15\n"),
        (&[1, 1, 0], "refused 16\n"),
        (&[1, 1, 5, 0, 7], "refused 1\n"),
        (&sample("chain-of-two.sheet"), "refused 14\n"),
    ] {
        for number in ["0", "1"] {
            assert_eq!(run(&["term", number], sheet), refused(text), "{sheet:?}");
        }
    }
}

#[test]
fn labels_as_text() {
    let text = "nodes 2\ndiffer\nlabel 0 64\ntree 0 1\nlabel 1 255\n";
    let sheet = [1, 2, 6, 5, 0, 64, 2, 0, 1, 5, 1, 255, 0];
    assert_eq!(bytes(&["encode"], text.as_bytes()), (sheet.to_vec(), 0));
    // 255 takes three children, and the words of plain sheets know no labels.
    assert_eq!(run(&["decode"], &sheet), refused(&format!("{text}# refused 14\n")));
    assert_eq!(run(&["tidy"], &sheet), refused("refused 2\n"));
    assert_eq!(run(&["decode"], &[1, 1, 5, 0, 7]), refused("nodes 1\nlabel 0 7\n# refused 1\n"));
    assert_eq!(run(&["decode"], &[1, 1, 5, 0, 7, 0]), done("nodes 1\nlabel 0 7\n"));
    for line in ["label 0", "label 0 256", "label 0 1 2", "differ 1", "label zero 1"] {
        assert_eq!(run(&["encode"], format!("nodes 1\n{line}\n").as_bytes()), (String::new(), 2), "{line}");
    }
}

#[test]
fn sheets_that_are_too_long() {
    assert_eq!(run(&["count"], &[0; 2048]), refused("refused 2\n"));
    assert_eq!(run(&["count"], &[0; 2049]), refused("refused 12\n"));
    assert_eq!(run(&["list"], &[0; 5000]), refused("refused 12\n"));
    let (text, status) = run(&["decode"], &repeating(680));
    assert_eq!((text.lines().last(), status), (Some("# refused 12"), 1));
    let differing = |times: usize| [&[1, 1, 5, 0, 7], &vec![6; times][..], &[0]].concat();
    assert_eq!(run(&["labelled"], &differing(2042)), done("nodes 1\n"));
    assert_eq!(run(&["labelled"], &differing(2043)), refused("refused 12\n"));
}

/// The program answers, and is gone before it was given all of this.
#[test]
fn inputs_without_end() {
    for (words, answer) in [
        (&["list"][..], (b"refused 12\n".to_vec(), 1)),
        (&["labelled"], (b"refused 12\n".to_vec(), 1)),
        (&["term", "1"], (b"refused 12\n".to_vec(), 1)),
        (&["decode"], (b"# refused 12\n".to_vec(), 1)),
        (&["encode"], (Vec::new(), 2)),
        (&["check-cycle", "/dev/zero"], (Vec::new(), 2)),
        (&["draw", "one"], (Vec::new(), 2)),
        (&["unknown"], (Vec::new(), 2)),
    ] {
        let mut child = spawn(words);
        let mut input = child.stdin.take().unwrap();
        let taken = (0..1000).take_while(|_| input.write_all(&[b' '; 65536]).is_ok()).count();
        assert!(taken < 1000, "{words:?}: {taken} times 65,536 bytes were taken");
        assert_eq!(ended(child), answer, "{words:?}");
    }
}

#[test]
fn refusals() {
    let sheet = sample("chain-of-two.sheet");
    assert_eq!(run(&["list"], &[5]), refused("refused 2\n"));
    assert_eq!(run(&["list"], &[]), refused("refused 1\n"));
    assert_eq!(run(&["list"], &[1, 0]), refused("refused 3\n"));
    assert_eq!(run(&["list"], &[1, 1]), refused("refused 1\n"));
    assert_eq!(run(&["check-placing", &file("pairs", "0:1")], &[5]), refused("refused 2\n"));
    assert_eq!(run(&["reading", "0"], &sheet), refused("refused 11\n"));
    assert_eq!(run(&["reading", "3"], &sheet), refused("refused 11\n"));
    assert_eq!(run(&["draw", "3"], &sheet), refused("refused 11\n"));
    assert_eq!(run(&["decode"], &[1, 2, 2, 0, 1]), refused("nodes 2\ntree 0 1\n# refused 1\n"));
}

#[test]
fn anything_else_shows_the_usage() {
    for words in [&[] as &[&str], &["readings"], &["reading"], &["reading", "one"], &["list", "2"], &["labelled", "2"]]
    {
        assert_eq!(run(words, &[]), (String::new(), 2));
    }
    for words in
        [&["term"][..], &["term", "one"], &["term", "-1"], &["term", "1", "2"], &["term", "18446744073709551616"]]
    {
        assert_eq!(run(words, &[1, 1, 5, 0, 7, 0]), (String::new(), 2), "{words:?}");
    }
    assert_eq!(run(&["encode"], b"nodes\n"), (String::new(), 2));
}
