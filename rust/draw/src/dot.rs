//! Text that Graphviz takes.

use std::fmt::Write;

use aznifrem::Map;
use compare::{Judged, Totals};

use crate::graph::{Edge, Graph, Mark, Node, Spot, Way, beside, graph};

/// A map as a graph of Graphviz: static edges are drawn through, dynamic ones dashed with their number of
/// paths, and where no path shows a destination the edge leads to a red question mark.
pub fn dot(title: &str, map: &Map) -> String {
    let mut text = opened(&format!("{title}: {}", Totals::of(map)));
    body(&mut text, "b", &graph(map));
    text.push_str("}\n");
    text
}

/// Two maps side by side: red is what went, green what came, yellow a block of both that moved.
pub fn dot_beside(title: &str, old: &Map, new: &Map, judged: &Judged) -> String {
    let mut text = opened(&format!("{title}: {judged}"));
    let graphs = beside(old, new, judged);
    for (name, graph) in ["old", "new"].into_iter().zip(&graphs) {
        // Writing to a String does not fail.
        let _ = writeln!(text, "subgraph cluster_{name} {{\nlabel=\"{name}\";");
        body(&mut text, &name[..1], graph);
        text.push_str("}\n");
    }
    text.push_str("}\n");
    text
}

fn opened(label: &str) -> String {
    format!(
        "digraph {{\nlabel={};\nlabelloc=t;\nfontname=monospace;\nnode [shape=box, fontname=monospace, style=filled, fillcolor=white];\nedge [fontname=monospace];\n",
        quoted(label)
    )
}

/// A string of Graphviz: a backslash there begins an escape, so it is doubled.
fn quoted(text: &str) -> String {
    let escaped = text.replace('\\', "\\\\").replace('"', "\\\"");
    let shown: String = escaped
        .chars()
        .map(|c| if c.is_control() { '\u{fffd}' } else { c })
        .collect();
    format!("\"{shown}\"")
}

fn body(text: &mut String, prefix: &str, graph: &Graph) {
    for node in &graph.nodes {
        let _ = writeln!(text, "{} [{}];", id(prefix, node.spot), look(node));
    }
    for edge in &graph.edges {
        let (from, to) = (id(prefix, edge.from), id(prefix, edge.to));
        let _ = writeln!(text, "{from} -> {to} [{}];", line(edge));
    }
}

fn id(prefix: &str, spot: Spot) -> String {
    match spot {
        Spot::Block(start) => format!("{prefix}{start}"),
        Spot::Away(to) => format!("{prefix}_away_{to}"),
        Spot::Unknown(start) => format!("{prefix}_unknown_{start}"),
    }
}

fn look(node: &Node) -> String {
    let lines: Vec<String> = node
        .lines
        .iter()
        .map(|line| line.replace('"', "'"))
        .collect();
    let mut look = format!("label=\"{}\"", lines.join("\\n"));
    match node.spot {
        Spot::Unknown(_) => look.push_str(", shape=circle"),
        Spot::Away(_) => look.push_str(", style=dashed"),
        Spot::Block(_) => {}
    }
    if node.unresolved {
        look.push_str(", color=red, fontcolor=red, penwidth=2");
    }
    match node.mark {
        Mark::Same => {}
        Mark::Came => look.push_str(", fillcolor=palegreen"),
        Mark::Went => look.push_str(", fillcolor=lightpink"),
        Mark::Changed => look.push_str(", fillcolor=khaki"),
    }
    look
}

fn line(edge: &Edge) -> String {
    let mut line = match edge.way {
        Way::Jump => String::from("style=solid"),
        Way::True => "style=solid, label=true".into(),
        Way::False => "style=solid, label=false".into(),
        Way::Dynamic => format!("style=dashed, label={}", edge.paths),
        Way::Unknown => "style=dotted, color=red".into(),
    };
    match edge.mark {
        // That a jump is lost is no good news: it stays red.
        Mark::Came if edge.way == Way::Unknown => line.push_str(", penwidth=3"),
        Mark::Came => line.push_str(", color=green4, penwidth=3"),
        Mark::Went => line.push_str(", color=red3, penwidth=3"),
        Mark::Same | Mark::Changed => {}
    }
    line
}
