//! A drawn map as SVG, with the page's own classes.

use std::fmt::Write;

use crate::graph::{Edge, Graph, Mark, Node, Spot, Way};
use crate::layout::{Layout, Place, layout};

const LINE: f64 = 14.0;

/// The picture of a graph; `name` keeps the arrows of two pictures of one page apart.
pub fn svg(name: &str, graph: &Graph) -> String {
    let laid = layout(graph);
    let routes: Vec<Option<Route>> = graph.edges.iter().map(|edge| route(&laid, edge)).collect();
    let furthest = routes.iter().flatten().map(|route| route.right + 10.0);
    let width = furthest.fold(laid.width, f64::max);
    let height = laid.height;
    // A wide picture is drawn smaller, as long as it can be read.
    let least = width * 0.6;
    let mut text = format!(
        "<svg xmlns=\"http://www.w3.org/2000/svg\" style=\"width:100%;min-width:{least:.0}px;max-width:{width:.0}px\" viewBox=\"0 0 {width:.0} {height:.0}\" role=\"img\" aria-label=\"{name} map\">\n<defs><marker id=\"arrow-{name}\" viewBox=\"0 0 8 8\" refX=\"7\" refY=\"4\" markerUnits=\"userSpaceOnUse\" markerWidth=\"9\" markerHeight=\"9\" orient=\"auto-start-reverse\"><path d=\"M0 0L8 4L0 8z\" class=\"tip\"/></marker></defs>\n"
    );
    for (edge, route) in graph.edges.iter().zip(&routes) {
        if let Some(route) = route {
            drawn_edge(&mut text, name, edge, route);
        }
    }
    for node in &graph.nodes {
        if let Some(place) = laid.places.get(&node.spot) {
            drawn_node(&mut text, node, *place);
        }
    }
    text.push_str("</svg>\n");
    text
}

fn drawn_node(text: &mut String, node: &Node, place: Place) {
    let Place {
        left,
        top,
        width,
        height,
    } = place;
    let round = match node.spot {
        Spot::Unknown(_) => height / 2.0,
        _ => 4.0,
    };
    let mut class = String::from(match node.spot {
        Spot::Block(_) => "block",
        Spot::Away(_) => "block away",
        Spot::Unknown(_) => "block unknown",
    });
    if node.unresolved {
        class.push_str(" unresolved");
    }
    class.push_str(marked(node.mark));
    // Writing to a String does not fail.
    let _ = write!(
        text,
        "<g class=\"{class}\"><rect x=\"{left:.1}\" y=\"{top:.1}\" width=\"{width:.1}\" height=\"{height:.1}\" rx=\"{round:.0}\"/>"
    );
    let middle = left + width / 2.0;
    for (at, line) in node.lines.iter().enumerate() {
        let base = top + 5.0 + LINE * (at as f64 + 0.75);
        let _ = write!(
            text,
            "<text x=\"{middle:.1}\" y=\"{base:.1}\">{line}</text>"
        );
    }
    text.push_str("</g>\n");
}

fn marked(mark: Mark) -> &'static str {
    match mark {
        Mark::Same => "",
        Mark::Came => " came",
        Mark::Went => " went",
        Mark::Changed => " changed",
    }
}

fn drawn_edge(text: &mut String, name: &str, edge: &Edge, route: &Route) {
    let class = match edge.way {
        Way::Jump => "edge",
        Way::True => "edge true",
        Way::False => "edge false",
        Way::Dynamic => "edge dynamic",
        Way::Unknown => "edge lost",
    };
    let mark = marked(edge.mark);
    let Route { path, label, .. } = route;
    let _ = write!(
        text,
        "<path class=\"{class}{mark}\" d=\"{path}\" marker-end=\"url(#arrow-{name})\"/>"
    );
    let said = match edge.way {
        Way::True => "true".into(),
        Way::False => "false".into(),
        Way::Dynamic => edge.paths.to_string(),
        Way::Jump | Way::Unknown => String::new(),
    };
    if !said.is_empty() {
        let [x, y] = label;
        let _ = write!(
            text,
            "<text class=\"label\" x=\"{x:.1}\" y=\"{y:.1}\">{said}</text>"
        );
    }
    text.push('\n');
}

/// How an edge is drawn, where its label stands, and how far right it comes.
struct Route {
    path: String,
    label: [f64; 2],
    right: f64,
}

/// From the lower side to the upper one; an edge that leads back goes around on the right of what is between.
fn route(laid: &Layout, edge: &Edge) -> Option<Route> {
    let (from, to) = (laid.places.get(&edge.from)?, laid.places.get(&edge.to)?);
    let (x1, y1) = (from.left + from.width / 2.0, from.top + from.height);
    let (x2, y2) = (to.left + to.width / 2.0, to.top);
    if y2 > y1 {
        let bend = ((y2 - y1) / 2.0).clamp(14.0, 60.0);
        let (below, above) = (y1 + bend, y2 - bend);
        return Some(Route {
            path: format!("M{x1:.1} {y1:.1}C{x1:.1} {below:.1} {x2:.1} {above:.1} {x2:.1} {y2:.1}"),
            label: [x1 * 0.7 + x2 * 0.3 + 8.0, y1 * 0.7 + y2 * 0.3],
            right: x1.max(x2),
        });
    }
    let between = |place: &&Place| place.top >= to.top && place.top <= from.top;
    let between = laid.places.values().filter(between);
    let out = between
        .map(|place| place.left + place.width)
        .fold(0.0, f64::max);
    let out = out + 16.0 + (from.top - to.top) / 30.0;
    let (x1, y1) = (from.left + from.width, from.top + from.height / 2.0);
    let (x2, y2) = (to.left + to.width, to.top + to.height / 2.0);
    let turn = 12.0;
    Some(Route {
        path: format!(
            "M{x1:.1} {y1:.1}H{:.1}Q{out:.1} {y1:.1} {out:.1} {:.1}V{:.1}Q{out:.1} {y2:.1} {:.1} {y2:.1}H{x2:.1}",
            out - turn,
            y1 - turn,
            y2 + turn,
            out - turn
        ),
        label: [out - 10.0, (y1 + y2) / 2.0],
        right: out,
    })
}
