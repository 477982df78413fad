//! Damaged sheets.
use differential::random::Random;
use differential::sheet::LONGEST;
use differential::sheets::repeating;

/// The sheet with one thing wrong, or right by chance.
pub fn damaged(random: &mut Random, sheet: &[u8]) -> Vec<u8> {
    let mut bytes = sheet.to_vec();
    let commands = (sheet.len() - 3) / 3;
    let at = random.below(bytes.len());
    match random.below(17) {
        0 => bytes[at] ^= 1 << random.below(8),
        1 => bytes[at] = random.byte(),
        2 => bytes[at] = random.byte() % 8,
        3 => bytes.truncate(at),
        4 => bytes.extend((0..random.between(1, 5)).map(|_| random.byte() % 4).collect::<Vec<u8>>()),
        5 => bytes.insert(at, random.byte() % 4),
        6 => drop(bytes.remove(at)),
        7 => bytes[1] = random.pick(&[0, 1, 2, 127, 128, 129, 255, bytes[1].wrapping_sub(1), bytes[1].wrapping_add(1)]),
        // A command once more.
        8 if commands > 0 => {
            let from = 2 + 3 * random.below(commands);
            let to = 2 + 3 * random.below(commands + 1);
            let command = bytes[from..from + 3].to_vec();
            bytes.splice(to..to, command);
        }
        // A dominance edge more, from the leaf of one to the root of another.
        9 if commands > 0 => {
            let edges: Vec<&[u8]> = sheet[2..].chunks_exact(3).filter(|command| command[0] == 3).collect();
            if !edges.is_empty() {
                let (leaf, root) = (random.pick(&edges)[1], random.pick(&edges)[2]);
                let end = bytes.len() - 1;
                bytes.splice(end..end, [3, leaf, root]);
            }
        }
        // About as long as a sheet may be, by repeats, and then perhaps by bytes more or fewer at the end.
        10 => {
            let times = LONGEST.saturating_sub(sheet.len()) / 3 + random.below(3);
            bytes = repeating(random, sheet, times);
            if random.once_in(2) {
                bytes.resize(random.between(LONGEST - 2, LONGEST + 2), 0);
            }
        }
        // A command left out.
        11 if commands > 0 => {
            let from = 2 + 3 * random.below(commands);
            bytes.drain(from..from + 3);
        }
        // A dominance edge more between any nodes, bare ones too, or an added leaf, or what is no node at all.
        12 => {
            let ends = usize::from(bytes[1]) + 3;
            let end = bytes.len() - 1;
            bytes.splice(end..end, [3, random.below(ends) as u8, random.below(ends) as u8]);
        }
        // A tree edge more, back to the parent: a cycle, if that is a root.
        13 if commands > 0 => {
            let edges: Vec<&[u8]> = sheet[2..].chunks_exact(3).filter(|command| command[0] == 2).collect();
            if !edges.is_empty() {
                let edge = random.pick(&edges);
                let end = bytes.len() - 1;
                bytes.splice(end..end, [2, edge[2], edge[1]]);
            }
        }
        // A command of labelled sheets, with its operands or without.
        14 => {
            let from = 2 + 3 * random.below(commands + 1);
            let command: &[u8] = random.pick(&[&[5, 0, 7], &[5], &[6]]);
            bytes.splice(from..from, command.iter().copied());
        }
        // A command turned round, or of the other kind.
        _ if commands > 0 => {
            let from = 2 + 3 * random.below(commands);
            if random.once_in(2) {
                bytes.swap(from + 1, from + 2);
            } else {
                bytes[from] ^= 1;
            }
        }
        _ => bytes.clear(),
    }
    bytes
}

/// Bytes that look like commands, in any order.
pub fn noise(random: &mut Random) -> Vec<u8> {
    let nodes = random.between(1, 6);
    let mut bytes = vec![1, nodes as u8];
    for _ in 0..random.below(12) {
        let kind = if random.once_in(12) { random.byte() % 5 } else { random.pick(&[2, 2, 3]) };
        bytes.extend([kind, random.below(nodes) as u8, random.below(nodes) as u8]);
    }
    bytes.push(0);
    bytes
}
