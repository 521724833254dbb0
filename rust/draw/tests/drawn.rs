//! What is drawn is the map: the text for Graphviz, read back, has its blocks and jumps; the page has a box
//! for each block, none upon another, and is one file that asks for nothing.

#[path = "../../compare/tests/common/mod.rs"]
mod common;

use std::collections::{BTreeMap, BTreeSet};
use std::io::Write;
use std::process::{Command, Stdio};

use aznifrem::{BlockType, HIGHEST_LIMIT, Map};
use codes::Random;
use common::{code, coded_pair, made, map_of};
use compare::{Row, Totals, judge};
use draw::{Page, Shown, dot, dot_beside};

/// A graph of Graphviz, as far as it is written here.
#[derive(Default)]
struct Read {
    nodes: BTreeMap<String, String>,
    edges: BTreeMap<(String, String), Vec<String>>,
}

/// Reads a line `id [attributes];` or `id -> id [attributes];`; braces must close.
fn read(text: &str) -> Read {
    let mut read = Read::default();
    let mut depth = 0;
    for line in text.lines() {
        depth += line.matches('{').count();
        depth -= line.matches('}').count();
        let Some((head, rest)) = line.split_once(" [") else {
            continue;
        };
        let attributes = rest.strip_suffix("];").expect("a list closes").to_string();
        match head.split_once(" -> ") {
            Some((from, to)) => {
                let edge = (from.to_string(), to.to_string());
                read.edges.entry(edge).or_default().push(attributes);
            }
            None if head == "node" || head == "edge" => {}
            None => assert!(
                read.nodes.insert(head.into(), attributes).is_none(),
                "{head} twice"
            ),
        }
    }
    assert_eq!(depth, 0);
    for (from, to) in read.edges.keys() {
        assert!(
            read.nodes.contains_key(from) && read.nodes.contains_key(to),
            "{from} -> {to}"
        );
    }
    read
}

/// From where to where each block leads, and how it is drawn.
fn expected(map: &Map) -> BTreeSet<(String, String, &'static str)> {
    let id = |to: usize| match map.blocks.contains_key(&to) {
        true => format!("b{to}"),
        false => format!("b_away_{to}"),
    };
    let mut edges = BTreeSet::new();
    for (start, block) in &map.blocks {
        let mut add = |to: String, style| edges.insert((format!("b{start}"), to, style));
        let unknown = format!("b_unknown_{start}");
        let recorded = map.records.iter().filter(|record| record.start == *start);
        let recorded: BTreeSet<usize> = recorded.filter_map(|record| record.jump.to).collect();
        match &block.btype {
            BlockType::Terminate { .. } => {}
            BlockType::Jump { to } if recorded == BTreeSet::from([*to]) => {
                add(id(*to), "dashed");
            }
            BlockType::Jump { to } => {
                add(id(*to), "solid");
            }
            BlockType::Jumpi { true_to, false_to } => {
                add(id(*true_to), "solid");
                add(id(*false_to), "solid");
            }
            BlockType::DynamicJump { to: list } | BlockType::DynamicJumpi { true_to: list, .. } => {
                for jump in list {
                    match jump.to {
                        Some(to) => add(id(to), "dashed"),
                        None => add(unknown.clone(), "dotted"),
                    };
                }
                if list.is_empty() {
                    add(unknown, "dotted");
                }
                if let BlockType::DynamicJumpi { false_to, .. } = &block.btype {
                    add(id(*false_to), "solid");
                }
            }
        }
    }
    edges
}

fn drawn(map: &Map) {
    let text = dot("a", map);
    let read = read(&text);
    let edge = |((from, to), all): (&(String, String), &Vec<String>)| {
        let styles = all.iter().map(|attributes| {
            let style = attributes
                .split(", ")
                .find_map(|part| part.strip_prefix("style="));
            match style.expect("an edge has a style") {
                "solid" => "solid",
                "dashed" => "dashed",
                _ => "dotted",
            }
        });
        let (from, to) = (from.clone(), to.clone());
        styles
            .map(|style| (from.clone(), to.clone(), style))
            .collect::<Vec<_>>()
    };
    let edges: BTreeSet<_> = read.edges.iter().flat_map(edge).collect();
    assert_eq!(edges, expected(map), "{text}");
    let blocks = read.nodes.keys().filter(|id| !id.contains('_')).count();
    assert_eq!(blocks, map.blocks.len());
    let red = read
        .nodes
        .values()
        .filter(|look| look.contains("unresolved"));
    assert_eq!(red.clone().count(), Totals::of(map).unresolved);
    assert!(red.into_iter().all(|look| look.contains("color=red")));
}

#[test]
fn the_text_for_graphviz_is_the_map() {
    let mut random = Random::new(285);
    for _ in 0..3_000 {
        drawn(&made(&mut random));
        if let Some(map) = map_of(&code(&mut random), HIGHEST_LIMIT) {
            drawn(&map);
        }
    }
}

#[test]
fn two_maps_are_drawn_with_what_moved() {
    let mut random = Random::new(286);
    let mut marked = 0;
    for _ in 0..2_000 {
        let Some((old, new)) = coded_pair(&mut random) else {
            continue;
        };
        let judged = judge(&old, &new);
        let read = read(&dot_beside("a \"b\" \\", &old, &new, &judged));
        let colour = |id: String, colour: &str| read.nodes[&id].contains(colour);
        let differ = judged.verdict == compare::Verdict::Different;
        for row in judged.rows.iter().filter(|_| differ) {
            marked += 1;
            match row {
                Row::BlockCame(face) => assert!(colour(format!("n{}", face.start), "palegreen")),
                Row::BlockWent(face) => assert!(colour(format!("o{}", face.start), "lightpink")),
                Row::BlockChanged { before, .. } => {
                    let at = before.start;
                    assert!(colour(format!("o{at}"), "khaki") && colour(format!("n{at}"), "khaki"));
                }
                _ => marked -= 1,
            }
        }
        // Nothing is marked that no row is of.
        let looks = read
            .nodes
            .values()
            .filter(|look| look.contains("fillcolor"));
        assert!(differ || looks.count() == 0);
    }
    assert!(marked > 1_000, "{marked}");
}

/// Where Graphviz is installed it takes the text.
#[test]
fn graphviz_takes_it() {
    let mut random = Random::new(287);
    let mut text = String::new();
    for _ in 0..20 {
        if let Some((old, new)) = coded_pair(&mut random) {
            text += &dot("one \"quoted\" \\n name\\", &old);
            text += &dot_beside("two\u{7}", &old, &new, &judge(&old, &new));
        }
    }
    let child = Command::new("dot")
        .args(["-Tcanon"])
        .stdin(Stdio::piped())
        .stdout(Stdio::null())
        .spawn();
    let Ok(mut child) = child else {
        return;
    };
    let mut stdin = child.stdin.take().expect("it is piped");
    stdin.write_all(text.as_bytes()).expect("it is read");
    drop(stdin);
    assert!(child.wait().expect("it ends").success());
}

/// The boxes of a picture: x, y, width, height.
fn boxes(svg: &str) -> Vec<[f64; 4]> {
    let rects = svg.split("<rect ").skip(1);
    let number = |rect: &str, name: &str| -> f64 {
        let value = rect
            .split(&format!("{name}=\""))
            .nth(1)
            .and_then(|rest| rest.split('"').next());
        value
            .expect("a box has it")
            .parse()
            .expect("it is a number")
    };
    rects
        .map(|rect| ["x", "y", " width", " height"].map(|name| number(rect, name)))
        .collect()
}

/// Tags open and close in order, attributes are quoted.
fn well_formed(page: &str) {
    let mut open: Vec<&str> = Vec::new();
    for tag in page
        .split('<')
        .skip(1)
        .map(|rest| rest.split('>').next().expect("a tag closes"))
    {
        let name = tag
            .split([' ', '\n'])
            .next()
            .expect("a tag has a name")
            .trim_end_matches('/');
        match tag.strip_prefix('/') {
            _ if tag.starts_with('!') || name == "meta" || tag.ends_with('/') => {}
            Some(closed) => assert_eq!(open.pop(), Some(closed)),
            None => open.push(name),
        }
        assert_eq!(tag.matches('"').count() % 2, 0, "{tag}");
    }
    assert_eq!(open, [""; 0]);
}

#[test]
fn the_page_draws_every_block_once_and_asks_for_nothing() {
    let mut random = Random::new(288);
    for _ in 0..150 {
        let Some((old, new)) = coded_pair(&mut random) else {
            continue;
        };
        let judged = judge(&old, &new);
        let mut page = Page::new("a <night> & \"more\"");
        page.add(
            "<b>\u{1b}[31m.map",
            &Shown::Compared {
                old: &old,
                new: &new,
                judged: &judged,
            },
        );
        page.add("c.map", &Shown::Came(judged.new));
        page.add("d.map", &Shown::Went(judged.old));
        page.add("f.map", &Shown::Refused("<script>"));
        page.add(
            "e.map",
            &Shown::NotCompared(&["<script>alert(1)</script>".into()]),
        );
        let page = page.finish();
        well_formed(&page);
        let asks = [
            "<script",
            "src=",
            "@import",
            "url(http",
            "<link",
            "<b>\u{1b}",
            "\u{1b}",
        ];
        assert!(asks.iter().all(|word| !page.contains(word)), "{page}");
        assert_eq!(
            page.matches("http").count(),
            page.matches("http-equiv").count() + page.matches("xmlns=").count()
        );
        let pictures: Vec<&str> = page.split("<figure>").skip(1).collect();
        if judged.verdict != compare::Verdict::Different {
            assert_eq!(pictures.len(), 0);
            continue;
        }
        for (picture, map) in pictures.iter().zip([&old, &new]) {
            let boxes = boxes(picture);
            let blocks = picture.matches("class=\"block").count();
            let others = picture.matches("class=\"block away").count()
                + picture.matches("class=\"block unknown").count();
            assert_eq!((blocks, blocks - others), (boxes.len(), map.blocks.len()));
            apart(&boxes, picture);
        }
    }
}

/// No box lies upon another, and all lie in the picture.
fn apart(boxes: &[[f64; 4]], picture: &str) {
    let view = picture
        .split("viewBox=\"0 0 ")
        .nth(1)
        .and_then(|rest| rest.split('"').next());
    let view: Vec<f64> = view
        .expect("it has a size")
        .split(' ')
        .map(|n| n.parse().expect("a number"))
        .collect();
    for (at, [x, y, width, height]) in boxes.iter().enumerate() {
        assert!(*x >= 0.0 && *y >= 0.0 && x + width <= view[0] && y + height <= view[1]);
        for [x2, y2, width2, height2] in &boxes[..at] {
            let beside = x + width < *x2 || x2 + width2 < *x;
            let above = y + height < *y2 || y2 + height2 < *y;
            assert!(beside || above, "{picture}");
        }
    }
}

/// Of a great map only what moved is drawn, and the page says how much is left out.
#[test]
fn a_great_map_is_drawn_around_what_moved() {
    let code = codes::contract::sized(&mut Random::new(115), 6_000, codes::contract::Style::Plain);
    let old = map_of(&code, HIGHEST_LIMIT).expect("it has a map");
    let mut new = old.clone();
    let (start, last) = new.blocks.pop_last().expect("it has blocks");
    let judged = judge(&old, &new);
    let mut page = Page::new("great");
    page.add(
        "great.map",
        &Shown::Compared {
            old: &old,
            new: &new,
            judged: &judged,
        },
    );
    let page = page.finish();
    assert!(page.contains(" blocks far from what moved left out"));
    assert!(page.contains(&format!(
        "{start}-{} ({start:#x}-{:#x})",
        last.end, last.end
    )));
    assert!(page.matches("<rect ").count() <= 240);
}

/// A record may be of a block that pruning took away: there is nothing to draw of it.
#[test]
fn what_moved_of_no_block_is_not_drawn() {
    let code = codes::contract::sized(&mut Random::new(115), 6_000, codes::contract::Style::Plain);
    let old = map_of(&code, HIGHEST_LIMIT).expect("it has a map");
    let mut new = old.clone();
    let pruned = |record: &aznifrem::Record| !old.blocks.contains_key(&record.start);
    let at = new.records.iter().position(pruned).expect("it has one");
    new.records.remove(at);
    let judged = judge(&old, &new);
    let mut page = Page::new("pruned");
    let (old, new, judged) = (&old, &new, &judged);
    page.add("pruned.map", &Shown::Compared { old, new, judged });
    let page = page.finish();
    assert!(page.contains("Not drawn: what moved is of blocks that are in neither map."));
    assert_eq!(page.matches("<figure>").count(), 0);
}
