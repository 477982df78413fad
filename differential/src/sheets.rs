//! Sheets to try: chains, and random ones of several kinds.
use crate::graph::{Edge, Graph, Node, NODES};
use crate::placing::{hung, TOP};
use crate::random::Random;
use crate::sheet;

const MOST_DOMINANCE: usize = 255;

/// The chain of so many upper fragments, numbered as the chain of two is: upper fragment i has root 3i and two leaves, lower
/// fragment j root 3k + 2j and one leaf. Lengths 1 to 25.
pub fn chain(length: usize) -> Vec<u8> {
    let upper = |i: usize| 3 * i;
    let lower = |j: usize| 3 * length + 2 * j;
    let mut tree = Vec::new();
    let mut dominance = Vec::new();
    for i in 0..length {
        tree.extend([(upper(i), upper(i) + 1), (upper(i), upper(i) + 2)]);
        dominance.extend([(upper(i) + 1, lower(i)), (upper(i) + 2, lower(i + 1))]);
    }
    tree.extend((0..=length).map(|j| (lower(j), lower(j) + 1)));
    sheet::write(5 * length + 2, &tree, &dominance)
}

/// Several sheets in one, the nodes of each numbered after those of the ones before.
pub fn side_by_side(graphs: &[Graph]) -> Graph {
    let mut whole = Graph { parent: Vec::new(), dominance: Vec::new() };
    for graph in graphs {
        let before = whole.nodes();
        whole.parent.extend(graph.parent.iter().map(|parent| parent.map(|node| node + before)));
        whole.dominance.extend(graph.dominance.iter().map(|&(leaf, root)| (leaf + before, root + before)));
    }
    whole
}

/// The graph with its nodes numbered anew: node i becomes `names[i]`.
pub fn renumbered(graph: &Graph, names: &[Node]) -> Graph {
    let mut parent = vec![None; graph.nodes()];
    for (above, child) in graph.tree() {
        parent[names[child]] = Some(names[above]);
    }
    let mut dominance: Vec<Edge> = graph.dominance.iter().map(|&(leaf, root)| (names[leaf], names[root])).collect();
    dominance.sort_unstable();
    Graph { parent, dominance }
}

/// The same graph, its nodes numbered at random.
pub fn shuffled(random: &mut Random, graph: &Graph) -> Graph {
    let mut names: Vec<Node> = (0..graph.nodes()).collect();
    random.shuffle(&mut names);
    renumbered(graph, &names)
}

/// Whether a leaf is all that its fragment has besides the root, and starts no dominance edge.
fn is_spare(graph: &Graph, leaf: Node) -> bool {
    let root = graph.root_of(leaf);
    graph.parent[leaf] == Some(root)
        && graph.leaves_of(root).len() == 1
        && graph.dominance.iter().all(|&(from, _)| from != leaf)
}

/// The graph with some leaves left out that its roots, now bare, grow again: but for its numbers it means the same.
pub fn bared(random: &mut Random, graph: &Graph) -> Graph {
    let leaves = graph.leaves().into_iter();
    let out: Vec<Node> = leaves.filter(|&leaf| is_spare(graph, leaf) && !random.once_in(4)).collect();
    let left = graph.nodes() - out.len();
    let mut order: Vec<Node> = (0..graph.nodes()).collect();
    order.sort_by_key(|node| out.contains(node));
    let mut names = vec![0; order.len()];
    for (name, &node) in order.iter().enumerate() {
        names[node] = name;
    }
    let mut bared = renumbered(graph, &names);
    bared.parent.truncate(left);
    bared
}

/// A written graph with so many bare nodes that it grows to about as many nodes as a sheet may have, or a few more.
pub fn near_overgrown(random: &mut Random, trees: &[Trees]) -> Graph {
    let mut graph = Graph { parent: Vec::new(), dominance: Vec::new() };
    if !random.once_in(4) {
        let most_nodes = random.pick(&[9, 40, 120]);
        let other = graph_of(random, most_nodes, trees);
        graph = bared(random, &other);
    }
    let wanted = random.between(NODES - 2, NODES + 3);
    while graph.nodes() + graph.bare_nodes().len() < wanted {
        graph.parent.push(None);
    }
    shuffled(random, &graph)
}

/// The same sheet with so many of its dominance edges' commands once more, anywhere.
pub fn repeating(random: &mut Random, bytes: &[u8], times: usize) -> Vec<u8> {
    let mut commands: Vec<&[u8]> = bytes[2..].chunks_exact(3).collect();
    let edges: Vec<&[u8]> = commands.iter().copied().filter(|command| command[0] == sheet::DOMINANCE).collect();
    if !edges.is_empty() {
        for _ in 0..times {
            commands.insert(random.below(commands.len() + 1), random.pick(&edges));
        }
    }
    [&bytes[..2], &commands.concat(), &bytes[bytes.len() - 1..]].concat()
}

/// The sheet of a graph, its commands in random order.
pub fn untidy(random: &mut Random, graph: &Graph) -> Vec<u8> {
    let mut bytes = sheet::tidy(graph);
    let end = bytes.len() - 1;
    let mut commands: Vec<Vec<u8>> = bytes[2..end].chunks(3).map(<[u8]>::to_vec).collect();
    random.shuffle(&mut commands);
    bytes.splice(2..end, commands.concat());
    bytes
}

/// How trees grow.
#[derive(Clone, Copy)]
pub enum Trees {
    /// Every node below the root is a leaf.
    Flat,
    /// Long paths with few side branches.
    Tall,
    /// No node has more than three children, so that there are symbols for all.
    Narrow,
    Any,
}

/// The kinds of trees whose nodes may have any number of children.
pub const WIDE: [Trees; 4] = [Trees::Flat, Trees::Tall, Trees::Any, Trees::Any];

/// Trees without dominance edges, each of two nodes or more.
pub fn forest(random: &mut Random, nodes: usize, fragments: usize, trees: Trees) -> Graph {
    let mut sizes = vec![2; fragments];
    for _ in 2 * fragments..nodes {
        sizes[random.below(fragments)] += 1;
    }
    let mut parent: Vec<Option<Node>> = Vec::new();
    for size in sizes {
        let root = parent.len();
        parent.push(None);
        for node in root + 1..root + size {
            let above = match trees {
                Trees::Flat => root,
                Trees::Tall if !random.once_in(5) => node - 1,
                Trees::Narrow => {
                    let children = |above: Node| parent.iter().filter(|&&parent| parent == Some(above)).count();
                    let open: Vec<Node> = (root..node).filter(|&above| children(above) < 3).collect();
                    random.pick(&open)
                }
                _ => random.between(root, node - 1),
            };
            parent.push(Some(above));
        }
    }
    Graph { parent, dominance: Vec::new() }
}

/// A forest made of the fragments: one after the other in random order, each under a leaf that is there already or on top.
pub fn random_hanging(random: &mut Random, graph: &Graph) -> Vec<u8> {
    let mut roots = graph.roots();
    random.shuffle(&mut roots);
    let mut placing = vec![TOP; graph.nodes()];
    let mut leaves: Vec<Node> = Vec::new();
    for root in roots {
        if !leaves.is_empty() && !random.once_in(6) {
            placing[root] = random.pick(&leaves) as u8;
        }
        leaves.extend(graph.leaves_of(root));
    }
    placing
}

/// A forest that is one long branch: each fragment under a leaf of the one before.
fn random_branch(random: &mut Random, graph: &Graph) -> Vec<u8> {
    let mut roots = graph.roots();
    random.shuffle(&mut roots);
    let mut placing = vec![TOP; graph.nodes()];
    for pair in roots.windows(2) {
        placing[pair[1]] = random.pick(&graph.leaves_of(pair[0])) as u8;
    }
    placing
}

/// How dominance edges are chosen.
#[derive(Clone, Copy)]
enum Edges {
    /// From any leaf to any root.
    Any,
    /// Those of one solved form, and so many more of any kind.
    Hidden(usize),
    /// Those of one solved form that is one long branch.
    Branch,
    /// Each edge joins two parts that nothing joined before: no undirected cycle.
    Joining,
}

fn some_pairs(random: &mut Random, mut pairs: Vec<Edge>, wanted: usize) -> Vec<Edge> {
    random.shuffle(&mut pairs);
    pairs.truncate(wanted);
    pairs
}

fn pairs_of(graph: &Graph) -> Vec<Edge> {
    let roots = graph.roots();
    graph.leaves().into_iter().flat_map(|leaf| roots.iter().map(move |&root| (leaf, root))).collect()
}

/// Those of the pairs that run downward in the placing.
fn downward(graph: &Graph, placing: &[u8]) -> Vec<Edge> {
    let descent = graph.descent(hung(placing));
    pairs_of(graph).into_iter().filter(|&(leaf, root)| descent.holds(leaf, root)).collect()
}

fn joining(random: &mut Random, graph: &Graph, wanted: usize) -> Vec<Edge> {
    let mut part: Vec<Node> = (0..graph.nodes()).map(|node| graph.root_of(node)).collect();
    let mut edges = Vec::new();
    for (leaf, root) in some_pairs(random, pairs_of(graph), usize::MAX) {
        let (one, other) = (part[leaf], part[root]);
        if one != other && edges.len() < wanted {
            edges.push((leaf, root));
            part.iter_mut().filter(|part| **part == one).for_each(|part| *part = other);
        }
    }
    edges
}

fn dominance(random: &mut Random, graph: &Graph, edges: Edges, wanted: usize) -> Vec<Edge> {
    let mut chosen = match edges {
        Edges::Any => some_pairs(random, pairs_of(graph), wanted),
        Edges::Joining => joining(random, graph, wanted),
        Edges::Branch => {
            let placing = random_branch(random, graph);
            some_pairs(random, downward(graph, &placing), wanted)
        }
        Edges::Hidden(more) => {
            let placing = random_hanging(random, graph);
            let mut chosen = some_pairs(random, downward(graph, &placing), wanted.saturating_sub(more));
            chosen.extend(some_pairs(random, pairs_of(graph), more));
            chosen
        }
    };
    chosen.sort_unstable();
    chosen.dedup();
    chosen.truncate(MOST_DOMINANCE);
    chosen
}

/// A random graph with so many nodes at most, and two at least.
pub fn random_graph(random: &mut Random, most_nodes: usize) -> Graph {
    graph_of(random, most_nodes, &WIDE)
}

/// The same, its trees of one of these kinds.
pub fn graph_of(random: &mut Random, most_nodes: usize, trees: &[Trees]) -> Graph {
    let nodes = if random.once_in(8) { most_nodes.min(NODES) } else { random.between(2, most_nodes.min(NODES)) };
    let most_fragments = nodes / 2;
    let fragments = match random.below(3) {
        0 => most_fragments,
        1 => random.between(most_fragments.div_ceil(2), most_fragments),
        _ => random.between(1, most_fragments),
    };
    let trees = random.pick(trees);
    let mut graph = forest(random, nodes, fragments, trees);
    let more = random.between(1, 2);
    let edges = random.pick(&[Edges::Any, Edges::Hidden(0), Edges::Hidden(0), Edges::Hidden(more), Edges::Joining]);
    let wanted = match random.below(4) {
        0 => random.between(0, MOST_DOMINANCE),
        1 => random.between(0, fragments),
        _ => random.between(fragments.div_ceil(2), 2 * fragments),
    };
    graph.dominance = dominance(random, &graph, edges, wanted);
    shuffled(random, &graph)
}

/// A graph with as many dominance edges as a sheet may have.
pub fn crowded_graph(random: &mut Random) -> Graph {
    crowded_graph_of(random, Trees::Any)
}

/// The same with these trees.
pub fn crowded_graph_of(random: &mut Random, trees: Trees) -> Graph {
    let nodes = random.between(64, NODES);
    let fragments = random.between(nodes / 3, nodes / 2);
    let mut graph = forest(random, nodes, fragments, trees);
    let edges = random.pick(&[Edges::Any, Edges::Branch]);
    graph.dominance = dominance(random, &graph, edges, MOST_DOMINANCE);
    shuffled(random, &graph)
}

/// Fragments that all stand above one root: k of them have k! readings.
pub fn random_fork(random: &mut Random, fragments: usize) -> Graph {
    let mut graph = forest(random, 3 * fragments + 2, fragments + 1, Trees::Any);
    let roots = graph.roots();
    let lowest = roots[fragments];
    graph.dominance = roots[..fragments].iter().map(|&root| (random.pick(&graph.leaves_of(root)), lowest)).collect();
    graph.dominance.sort_unstable();
    shuffled(random, &graph)
}
