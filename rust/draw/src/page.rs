//! A night's diff as one page: the contracts with their verdicts, and for each that moved its rows and the
//! two maps. It has no script and asks for nothing from anywhere.

use std::fmt::Write;

use aznifrem::Map;
use compare::{Judged, Row, Totals, Verdict};

use crate::graph::beside;
use crate::svg::svg;

/// Rows of one contract that the page lists; `diff` prints all of them.
const MOST_ROWS: usize = 200;
/// Nodes of one picture; of a greater map only what moved is drawn, with what stands beside it.
const MOST_NODES: usize = 120;
/// Contracts whose maps are drawn.
const MOST_DRAWN: usize = 200;

/// Contracts that differ and are unfolded when the page is opened.
const MOST_OPEN: usize = 5;

const STYLE: &str = include_str!("page.css");

/// What is shown of one contract.
pub enum Shown<'a> {
    /// Both maps, and what moved between them.
    Compared {
        /// The old map.
        old: &'a Map,
        /// The new map.
        new: &'a Map,
        /// What moved.
        judged: &'a Judged,
    },
    /// A map in the new folder alone.
    Came(Totals),
    /// A map in the old folder alone.
    Went(Totals),
    /// Its contract was refused on one side or on both: what is said of it.
    Refused(&'a str),
    /// Why there is nothing to compare.
    NotCompared(&'a [String]),
}

/// A page in the making: what is drawn of a contract is kept, its maps are not.
pub struct Page {
    title: String,
    table: String,
    /// The rows of contracts that are equal: most of a night, and not looked at first.
    equal: String,
    sections: String,
    counts: [usize; 7],
    rose: usize,
    drawn: usize,
}

/// The heads of the counts, in their order.
const COUNTED: [&str; 7] = [
    "equal",
    "equal up to addresses",
    "different",
    "came",
    "went",
    "refused",
    "not compared",
];

impl Page {
    /// A page with no contract yet.
    pub fn new(title: &str) -> Page {
        Page {
            title: title.into(),
            table: String::new(),
            equal: String::new(),
            sections: String::new(),
            counts: [0; 7],
            rose: 0,
            drawn: 0,
        }
    }

    /// One more contract.
    pub fn add(&mut self, name: &str, shown: &Shown) {
        match shown {
            Shown::Compared { old, new, judged } => self.compared(name, [old, new], judged),
            Shown::Came(totals) => self.alone(3, name, &format!("map came: {totals}")),
            Shown::Went(totals) => self.alone(4, name, &format!("map went: {totals}")),
            Shown::Refused(says) => self.alone(5, name, says),
            Shown::NotCompared(why) => self.alone(6, name, &why.join("; ")),
        }
    }

    /// A contract of which there are no two maps.
    fn alone(&mut self, kind: usize, name: &str, says: &str) {
        self.counts[kind] += 1;
        let (name, says, word) = (escaped(name), escaped(says), COUNTED[kind]);
        // Writing to a String does not fail.
        let _ = writeln!(
            self.table,
            "<tr class=\"alone\"><td>{name}</td><td><span class=\"verdict {class}\">{word}</span></td><td colspan=\"6\">{says}</td></tr>",
            class = word.replace(' ', "-"),
        );
    }

    fn compared(&mut self, name: &str, maps: [&Map; 2], judged: &Judged) {
        let kind = judged.verdict as usize;
        self.counts[kind] += 1;
        self.rose += usize::from(judged.rose() > 0);
        let at: usize = self.counts.iter().sum();
        let shown = escaped(name);
        let named = match judged.verdict {
            Verdict::Equal => shown,
            _ => format!("<a href=\"#c{at}\">{shown}</a>"),
        };
        let (word, class) = (COUNTED[kind], COUNTED[kind].replace(' ', "-"));
        let note = judged.note().map_or(String::new(), |note| {
            format!("<small> {}</small>", escaped(&note))
        });
        let cells = cells(judged);
        let table = match judged.verdict {
            Verdict::Equal => &mut self.equal,
            _ => &mut self.table,
        };
        let _ = writeln!(
            table,
            "<tr><td>{named}</td><td><span class=\"verdict {class}\">{word}</span>{note}</td>{cells}</tr>"
        );
        if judged.verdict != Verdict::Equal {
            self.section(at, name, maps, judged);
        }
    }

    fn section(&mut self, at: usize, name: &str, maps: [&Map; 2], judged: &Judged) {
        let open = match judged.verdict {
            Verdict::Different if self.drawn < MOST_OPEN => " open",
            _ => "",
        };
        let _ = writeln!(
            self.sections,
            "<details id=\"c{at}\"{open}><summary><b>{}</b> <span>{}</span></summary>",
            escaped(name),
            escaped(&judged.to_string())
        );
        rows(&mut self.sections, &judged.rows);
        if judged.verdict == Verdict::Different {
            self.pictures(at, maps, judged);
        }
        self.sections.push_str("</details>\n");
    }

    fn pictures(&mut self, at: usize, [old, new]: [&Map; 2], judged: &Judged) {
        self.drawn += 1;
        if self.drawn > MOST_DRAWN {
            let _ = writeln!(
                self.sections,
                "<p>Not drawn: the page has the maps of {MOST_DRAWN} contracts. <code>diff --dot</code> draws any.</p>"
            );
            return;
        }
        let graphs = beside(old, new, judged).map(|graph| graph.at_most(MOST_NODES));
        if graphs.iter().all(|graph| graph.nodes.is_empty()) {
            let none = "<p>Not drawn: what moved is of blocks that are in neither map.</p>\n";
            self.sections.push_str(none);
            return;
        }
        self.sections.push_str("<div class=\"maps\">\n");
        for (name, graph) in ["old", "new"].into_iter().zip(graphs) {
            let left = match graph.left_out {
                0 => String::new(),
                count => format!(", {count} blocks far from what moved left out"),
            };
            let picture = svg(&format!("{name}-{at}"), &graph);
            let _ = writeln!(
                self.sections,
                "<figure><figcaption>{name}{left}</figcaption>\n<div class=\"scroll\">{picture}</div></figure>"
            );
        }
        self.sections.push_str("</div>\n");
    }

    /// The whole page.
    pub fn finish(self) -> String {
        let title = escaped(&self.title);
        let moved = table(&self.table);
        let equal = match self.counts[0] {
            0 => String::new(),
            count => format!(
                "<details><summary>{count} equal</summary>\n{}</details>\n",
                table(&self.equal)
            ),
        };
        let counted = COUNTED.iter().zip(self.counts);
        let counts: Vec<String> = counted
            .filter(|(_, count)| *count > 0)
            .map(|(word, count)| {
                format!(
                    "<span class=\"verdict {}\">{count} {word}</span>",
                    word.replace(' ', "-")
                )
            })
            .collect();
        let rose = match self.rose {
            0 => String::new(),
            count => {
                format!(" <span class=\"verdict rose\">unresolved jumps rose in {count}</span>")
            }
        };
        format!(
            "<!doctype html>\n<html lang=\"en\"><head><meta charset=\"utf-8\">\n<meta http-equiv=\"Content-Security-Policy\" content=\"default-src 'none'; style-src 'unsafe-inline'\">\n<meta name=\"viewport\" content=\"width=device-width\">\n<title>{title}</title>\n<style>\n{STYLE}</style></head><body>\n<h1>{title}</h1>\n<p>{}{rose}</p>\n{moved}{LEGEND}{}{equal}</body></html>\n",
            counts.join(" "),
            self.sections
        )
    }
}

const LEGEND: &str = "<p class=\"legend\">Drawn: a static edge <svg width=\"40\" height=\"10\"><path class=\"edge\" d=\"M2 5H38\"/></svg>, a dynamic one with its number of paths <svg width=\"40\" height=\"10\"><path class=\"edge dynamic\" d=\"M2 5H38\"/></svg>, one that no path shows <svg width=\"40\" height=\"10\"><path class=\"edge lost\" d=\"M2 5H38\"/></svg>; <span class=\"key came\">came</span> <span class=\"key went\">went</span> <span class=\"key changed\">moved</span>.</p>\n";

fn table(rows: &str) -> String {
    if rows.is_empty() {
        return String::new();
    }
    format!(
        "<table><thead><tr><th>contract</th><th>verdict</th><th>rows</th><th>blocks</th><th>dynamic</th><th>unresolved</th><th>records</th><th>energy</th></tr></thead>\n<tbody>\n{rows}</tbody></table>\n"
    )
}

/// Rows and figures, old and new.
fn cells(judged: &Judged) -> String {
    let Judged { old, new, .. } = judged;
    let mut cells = format!("<td class=\"number\">{}</td>", judged.rows.len());
    let pairs = [
        (old.blocks, new.blocks, false),
        (old.dynamic, new.dynamic, false),
        (old.unresolved, new.unresolved, judged.rose() > 0),
        (old.records, new.records, false),
        (old.energy as usize, new.energy as usize, false),
    ];
    for (old, new, rose) in pairs {
        let class = if rose { "number rose" } else { "number" };
        let pair = if old == new {
            new.to_string()
        } else {
            format!("{old} → {new}")
        };
        let _ = write!(cells, "<td class=\"{class}\">{pair}</td>");
    }
    cells
}

fn rows(text: &mut String, rows: &[Row]) {
    text.push_str("<ul>\n");
    for row in rows.iter().take(MOST_ROWS) {
        let class = match row {
            Row::BlockCame(_) | Row::JumpCame { .. } => "came",
            Row::BlockWent(_) | Row::JumpWent { .. } => "went",
            _ => "changed",
        };
        let _ = writeln!(
            text,
            "<li class=\"{class}\">{}</li>",
            escaped(&row.to_string())
        );
    }
    text.push_str("</ul>\n");
    if let Some(more @ 1..) = rows.len().checked_sub(MOST_ROWS) {
        let _ = writeln!(
            text,
            "<p>{more} rows more: <code>aznifrem diff</code> prints them all.</p>"
        );
    }
}

/// Text as HTML shows it; letters that control a terminal are shown as they are spelt.
fn escaped(text: &str) -> String {
    let mut shown = String::new();
    for letter in text.chars() {
        match letter {
            '&' => shown.push_str("&amp;"),
            '<' => shown.push_str("&lt;"),
            '>' => shown.push_str("&gt;"),
            '"' => shown.push_str("&quot;"),
            control if control.is_control() => shown.extend(control.escape_default()),
            other => shown.push(other),
        }
    }
    shown
}
