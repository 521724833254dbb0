//! What is drawn of a map: its blocks, and one edge for all paths that lead from one to another.

use std::collections::{BTreeMap, BTreeSet};

use aznifrem::{Block, BlockType, DynamicJump, Map};
use compare::{Face, Judged, Leads, Row, Verdict, faces, is_unresolved};

/// What an edge begins or ends at.
#[derive(Clone, Copy, Debug, PartialEq, Eq, PartialOrd, Ord, Hash)]
pub enum Spot {
    /// A block, by its start.
    Block(usize),
    /// An address where the map has no block.
    Away(usize),
    /// Where the jump of this block leads if no path shows it.
    Unknown(usize),
}

/// Whether a thing is in the other map too.
#[derive(Clone, Copy, Debug, PartialEq, Eq)]
pub enum Mark {
    Same,
    Came,
    Went,
    Changed,
}

#[derive(Clone, Debug)]
pub struct Node {
    pub spot: Spot,
    pub lines: Vec<String>,
    /// A dynamic jump for which no path shows a destination, and the mark where it would lead.
    pub unresolved: bool,
    pub mark: Mark,
}

/// How an edge is gone along.
#[derive(Clone, Copy, Debug, PartialEq, Eq, PartialOrd, Ord, Hash)]
pub enum Way {
    Jump,
    True,
    False,
    /// By paths of the record.
    Dynamic,
    Unknown,
}

#[derive(Clone, Debug)]
pub struct Edge {
    pub from: Spot,
    pub to: Spot,
    pub way: Way,
    /// How many paths show it; 0 for a static one.
    pub paths: usize,
    pub mark: Mark,
}

#[derive(Clone, Debug, Default)]
pub struct Graph {
    pub nodes: Vec<Node>,
    pub edges: Vec<Edge>,
    /// Blocks of the map that were left out.
    pub left_out: usize,
}

/// The graph of a map, nothing marked.
pub fn graph(map: &Map) -> Graph {
    let faces = faces(map);
    let mut graph = Graph::default();
    for (start, block) in &map.blocks {
        let from = Spot::Block(*start);
        let face = faces.get(start);
        graph.nodes.push(Node {
            spot: from,
            lines: face.map_or(Vec::new(), |face| lines(face, block)),
            unresolved: is_unresolved(block),
            mark: Mark::Same,
        });
        for ((to, way), paths) in ways(map, block, face) {
            let to = to.map_or(Spot::Unknown(*start), |to| spot(map, to));
            let mark = Mark::Same;
            graph.edges.push(Edge {
                from,
                to,
                way,
                paths,
                mark,
            });
        }
    }
    let ends: BTreeSet<Spot> = graph.edges.iter().map(|edge| edge.to).collect();
    graph.nodes.extend(ends.into_iter().filter_map(end));
    graph
}

fn spot(map: &Map, to: usize) -> Spot {
    if map.blocks.contains_key(&to) {
        Spot::Block(to)
    } else {
        Spot::Away(to)
    }
}

/// What is drawn where an edge leads to no block.
fn end(spot: Spot) -> Option<Node> {
    let (line, unresolved) = match spot {
        Spot::Block(_) => return None,
        Spot::Away(to) => (format!("{to} ({to:#x}), no block"), false),
        Spot::Unknown(_) => ("?".into(), true),
    };
    Some(Node {
        spot,
        lines: vec![line],
        unresolved,
        mark: Mark::Same,
    })
}

fn lines(face: &Face, block: &Block) -> Vec<String> {
    let Face { start, end, leads } = face;
    let count = block.btype.found().len();
    let paths = if count == 1 { "path" } else { "paths" };
    let kind = match leads {
        Leads::Terminate { success: true } => "Terminate, success".into(),
        Leads::Terminate { success: false } => "Terminate, failure".into(),
        Leads::Jump { .. } => "Jump".into(),
        Leads::Merged => "Jump, merged".into(),
        Leads::Jumpi { .. } => "Jumpi".into(),
        _ if is_unresolved(block) => format!("{}, unresolved", block.btype.name()),
        _ => format!("{}, {count} {paths}", block.btype.name()),
    };
    vec![format!("{start}-{end} ({start:#x}-{end:#x})"), kind]
}

type Ways = BTreeMap<(Option<usize>, Way), usize>;

/// Where a block leads and how, with the number of paths that show it.
fn ways(map: &Map, block: &Block, face: Option<&Face>) -> Ways {
    let mut ways = Ways::new();
    let merged = face.is_some_and(|face| face.leads == Leads::Merged);
    match &block.btype {
        BlockType::Terminate { .. } => {}
        BlockType::Jump { to } if merged => {
            let of_block = |start: usize| start == block.start;
            let found = map.records.iter().filter(|record| of_block(record.start));
            let found = found.filter(|record| record.jump.to.is_some());
            ways.insert((Some(*to), Way::Dynamic), found.count());
        }
        BlockType::Jump { to } => drop(ways.insert((Some(*to), Way::Jump), 0)),
        BlockType::Jumpi { true_to, false_to } => {
            ways.insert((Some(*true_to), Way::True), 0);
            ways.insert((Some(*false_to), Way::False), 0);
        }
        BlockType::DynamicJump { to } => add(&mut ways, to),
        BlockType::DynamicJumpi { true_to, false_to } => {
            add(&mut ways, true_to);
            ways.insert((Some(*false_to), Way::False), 0);
        }
    }
    ways
}

fn add(ways: &mut Ways, jumps: &[DynamicJump]) {
    for jump in jumps {
        let way = jump.to.map_or(Way::Unknown, |_| Way::Dynamic);
        *ways.entry((jump.to, way)).or_default() += 1;
    }
    if jumps.is_empty() {
        ways.insert((None, Way::Unknown), 0);
    }
}

/// The graphs of two maps, with what moved marked; by address, maps that are equal up to addresses are not.
pub fn beside(old: &Map, new: &Map, judged: &Judged) -> [Graph; 2] {
    let mut graphs = [graph(old), graph(new)];
    if judged.verdict != Verdict::Different && judged.names.is_none() {
        return graphs;
    }
    let old_name = |at: usize| judged.names.as_ref().map_or(at, |names| names.name(at));
    let names: [&dyn Fn(usize) -> usize; 2] = [&old_name, &|at| at];
    let marks = marks(&judged.rows);
    let ways = [0, 1].map(|at| ways_of(&graphs[at], names[at]));
    for (at, graph) in graphs.iter_mut().enumerate() {
        let gone = if at == 0 { Mark::Went } else { Mark::Came };
        let blocks = graph.nodes.iter_mut();
        blocks.for_each(|node| marked(node, &marks, names[at]));
        let other = &ways[1 - at];
        let edges = graph.edges.iter_mut();
        let moved = edges.filter(|edge| !other.contains(&way_of(edge, names[at])));
        moved.for_each(|edge| edge.mark = gone);
    }
    graphs
}

fn marked(node: &mut Node, marks: &BTreeMap<usize, Mark>, name: &dyn Fn(usize) -> usize) {
    if let Spot::Block(start) = node.spot {
        node.mark = marks.get(&name(start)).copied().unwrap_or(Mark::Same);
    }
}

type WayOf = (Option<usize>, Option<usize>, Way);

fn ways_of(graph: &Graph, name: &dyn Fn(usize) -> usize) -> BTreeSet<WayOf> {
    let ways = graph.edges.iter();
    ways.map(|edge| way_of(edge, name)).collect()
}

/// An edge by its addresses: it is the same where a block stands at its end in one map alone.
fn way_of(edge: &Edge, name: &dyn Fn(usize) -> usize) -> WayOf {
    let address = |spot: Spot| match spot {
        Spot::Block(at) | Spot::Away(at) => Some(name(at)),
        Spot::Unknown(_) => None,
    };
    (address(edge.from), address(edge.to), edge.way)
}

/// What the rows say of each block.
fn marks(rows: &[Row]) -> BTreeMap<usize, Mark> {
    let mut marks = BTreeMap::new();
    for row in rows {
        let (start, mark) = match row {
            Row::BlockCame(face) => (face.start, Mark::Came),
            Row::BlockWent(face) => (face.start, Mark::Went),
            Row::BlockChanged { after, .. } => (after.start, Mark::Changed),
            Row::JumpCame { block, .. }
            | Row::JumpWent { block, .. }
            | Row::JumpMoved { block, .. }
            | Row::OrderWithin { block }
            | Row::List { block, .. } => (*block, Mark::Changed),
            Row::Instructions { start, .. } => (*start, Mark::Changed),
            Row::OrderBetween => continue,
        };
        marks.entry(start).or_insert(mark);
    }
    marks
}

impl Graph {
    /// The graph, or if it has more than so many nodes only what is marked and what stands beside that.
    pub fn at_most(self, most: usize) -> Graph {
        if self.nodes.len() <= most {
            return self;
        }
        let marked = |mark: Mark| mark != Mark::Same;
        let nodes = self.nodes.iter().filter(|node| marked(node.mark));
        let mut kept: BTreeSet<Spot> = nodes.map(|node| node.spot).collect();
        let edges = self.edges.iter().filter(|edge| marked(edge.mark));
        kept.extend(edges.flat_map(|edge| [edge.from, edge.to]));
        let marked = kept.clone();
        let beside = self.edges.iter();
        let beside = beside.filter(|edge| marked.contains(&edge.from) || marked.contains(&edge.to));
        kept.extend(beside.flat_map(|edge| [edge.from, edge.to]));
        // What is marked comes first, if it is too many too.
        let (first, rest): (Vec<Spot>, Vec<Spot>) =
            kept.into_iter().partition(|spot| marked.contains(spot));
        let kept: BTreeSet<Spot> = first.into_iter().chain(rest).take(most).collect();
        let blocks = |nodes: &[Node]| {
            let blocks = nodes
                .iter()
                .filter(|node| matches!(node.spot, Spot::Block(_)));
            blocks.count()
        };
        let all = blocks(&self.nodes);
        let kept_node = |node: &Node| kept.contains(&node.spot);
        let nodes: Vec<Node> = self.nodes.into_iter().filter(kept_node).collect();
        let within = |edge: &Edge| kept.contains(&edge.from) && kept.contains(&edge.to);
        let edges = self.edges.into_iter().filter(within).collect();
        let left_out = all - blocks(&nodes);
        Graph {
            nodes,
            edges,
            left_out,
        }
    }
}
