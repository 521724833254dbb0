//! Where each node of a drawn map stands: in layers from block 0 down.

use std::collections::{BTreeMap, HashMap, HashSet};

use crate::graph::{Graph, Spot};

/// Most nodes beside each other: a layer that has more is broken.
const WIDEST: usize = 8;
/// How often the layers are put in the order of what leads to them.
const SWEEPS: usize = 4;
const LETTER: f64 = 6.7;
const LINE: f64 = 14.0;
const GAP_ACROSS: f64 = 26.0;
const GAP_DOWN: f64 = 44.0;
const MARGIN: f64 = 14.0;

/// A node's box.
#[derive(Clone, Copy, Debug, Default)]
pub struct Place {
    pub left: f64,
    pub top: f64,
    pub width: f64,
    pub height: f64,
}

pub struct Layout {
    pub places: BTreeMap<Spot, Place>,
    pub width: f64,
    pub height: f64,
}

pub fn layout(graph: &Graph) -> Layout {
    let rows = ordered(graph, layers(graph));
    let size = |spot: &Spot| size(graph, *spot);
    let across = |row: &Vec<Spot>| {
        let widths: f64 = row.iter().map(|spot| size(spot).0).sum();
        widths + GAP_ACROSS * row.len().saturating_sub(1) as f64
    };
    let widest = rows.iter().map(across).fold(0.0, f64::max);
    let mut places = BTreeMap::new();
    let mut top = MARGIN;
    for row in &rows {
        let mut left = MARGIN + (widest - across(row)) / 2.0;
        let mut tallest = 0.0_f64;
        for spot in row {
            let (width, height) = size(spot);
            places.insert(
                *spot,
                Place {
                    left,
                    top,
                    width,
                    height,
                },
            );
            left += width + GAP_ACROSS;
            tallest = tallest.max(height);
        }
        top += tallest + GAP_DOWN;
    }
    Layout {
        places,
        width: widest + 2.0 * MARGIN,
        height: top - GAP_DOWN + MARGIN + LINE,
    }
}

fn size(graph: &Graph, spot: Spot) -> (f64, f64) {
    let node = graph.nodes.iter().find(|node| node.spot == spot);
    let lines = node.map_or(&[][..], |node| &node.lines);
    let longest = lines
        .iter()
        .map(|line| line.chars().count())
        .max()
        .unwrap_or(1);
    let width = longest as f64 * LETTER + 16.0;
    (width, lines.len() as f64 * LINE + 10.0)
}

/// Where each node leads.
type Next = HashMap<Spot, Vec<Spot>>;

/// Each node in the layer below all that lead to it, edges that lead back set aside.
fn layers(graph: &Graph) -> Vec<Vec<Spot>> {
    let mut next = Next::new();
    for edge in &graph.edges {
        next.entry(edge.from).or_default().push(edge.to);
    }
    let depth = depths(&falling(graph, &next), &next);
    let deepest = depth.values().max().copied().unwrap_or(0);
    let mut layers = vec![Vec::new(); deepest + 1];
    for node in &graph.nodes {
        layers[depth.get(&node.spot).copied().unwrap_or(0)].push(node.spot);
    }
    layers
}

/// How many edges lead to each node at most; what stands earlier in the order is led back to.
fn depths(order: &[Spot], next: &Next) -> HashMap<Spot, usize> {
    let places = order.iter().enumerate().map(|(at, spot)| (*spot, at));
    let place: HashMap<Spot, usize> = places.collect();
    let mut depth: HashMap<Spot, usize> = HashMap::new();
    for spot in order {
        let below = depth.get(spot).copied().unwrap_or(0) + 1;
        let sides = next.get(spot).map_or(&[][..], Vec::as_slice);
        for to in sides.iter().filter(|to| place[to] > place[spot]) {
            let deep = depth.entry(*to).or_default();
            *deep = (*deep).max(below);
        }
    }
    depth
}

/// The nodes from the top on, each before all that it leads to but by an edge that leads back.
fn falling(graph: &Graph, next: &Next) -> Vec<Spot> {
    let mut seen = HashSet::new();
    let mut left = Vec::new();
    for node in &graph.nodes {
        let mut open = Vec::new();
        if seen.insert(node.spot) {
            open.push((node.spot, 0));
        }
        while let Some((spot, tried)) = open.last_mut() {
            let side = next.get(spot).and_then(|sides| sides.get(*tried));
            *tried += 1;
            match side {
                Some(side) if seen.insert(*side) => open.push((*side, 0)),
                Some(_) => {}
                None => {
                    left.push(*spot);
                    open.pop();
                }
            }
        }
    }
    left.reverse();
    left
}

/// The layers, each in the order of the middle of what leads to its nodes, and broken where it is wide.
fn ordered(graph: &Graph, mut layers: Vec<Vec<Spot>>) -> Vec<Vec<Spot>> {
    let mut parents = Next::new();
    for edge in &graph.edges {
        parents.entry(edge.to).or_default().push(edge.from);
    }
    for _ in 0..SWEEPS {
        sweep(&parents, &mut layers);
    }
    let broken = layers.iter().flat_map(|layer| layer.chunks(WIDEST));
    broken.map(<[Spot]>::to_vec).collect()
}

fn sweep(parents: &Next, layers: &mut [Vec<Spot>]) {
    let mut place: HashMap<Spot, f64> = HashMap::new();
    for layer in layers {
        let middle = |spot: &Spot| -> f64 {
            let above = parents.get(spot).map_or(&[][..], Vec::as_slice);
            let above = above.iter().filter_map(|parent| place.get(parent));
            let (sum, count) = above.fold((0.0, 0.0), |(sum, count), at| (sum + at, count + 1.0));
            sum / f64::max(count, 1.0)
        };
        let mut keyed: Vec<(f64, Spot)> = layer.iter().map(|spot| (middle(spot), *spot)).collect();
        keyed.sort_by(|a, b| a.0.total_cmp(&b.0).then(a.1.cmp(&b.1)));
        *layer = keyed.into_iter().map(|(_, spot)| spot).collect();
        let count = layer.len() as f64;
        let places = layer.iter().enumerate();
        place.extend(places.map(|(at, spot)| (*spot, (at as f64 + 0.5) / count)));
    }
}
