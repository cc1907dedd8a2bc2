//! Prints the table over all alignments of our code, and compares it with the goals.
use crate::measure::Time;
use std::collections::BTreeMap;

/// The maximum ratio, except for the rows below.
const GOAL: f64 = 1.0;

/// Rows with a goal of their own: the start of the name, a part of the name, and the goal. The first match counts.
/// bench/README.md has the reasons.
const OWN_GOALS: &[(&str, &str, f64)] = &[
    ("IpSlice, filter", "one loop", 0.85),
    ("IpSlice, filter", "a call each", 0.95),
    ("IpSlice, filter", "refused", 0.70),
    ("Ipv4Slice, filter", "one loop", 0.85),
    ("Ipv4Slice, filter", "a call each", 0.95),
    ("Ipv4Slice, filter", "refused", 0.70),
    ("Ipv6Slice, strict, filter", "one loop", 0.85),
    ("Ipv6Slice, strict, filter", "a call each", 0.95),
    ("Ipv6Slice, strict, filter", "refused", 0.70),
    ("Ipv6Slice, lax, filter", "one loop", 0.85),
    ("Ipv6Slice, lax, filter", "a call each", 0.95),
    ("Ipv6Slice, lax, filter", "refused", 0.70),
    ("raw header, read", "", 1.00),
    ("authentication header, read", "", 1.00),
    ("fragment header, read", "", 1.00),
    ("cursor against our two passes", "", 0.82),
    ("cursor", "packet", 0.75),
    ("lax, filter", "packet", 0.90),
    ("", "chain of 4096", 1.20),
    ("", "chain of 64", 1.20),
    ("lax, iterator", "chain of 4", 1.05),
    ("lax, in full", "packet", 1.05),
    ("lax, in full", "first", 1.15),
    ("lax, in full", "after", 1.15),
    ("strict", "packet", 1.05),
    ("strict", "of length 0", 1.45),
    ("strict", "late", 1.45),
    ("strict", "", 1.25),
    ("runs of", "", 1.25),
    ("struct, set_next_headers", "", 1.25),
    ("struct, write with room", "", 1.25),
    ("struct, strict", "at the first", 18.0),
    ("struct, strict", "after one", 1.70),
    ("struct, strict", "chain of 0", 1.60),
    ("struct, strict", "", 1.45),
    ("IPv4, lax, in full", "", 1.60),
    ("IPv4, lax, filter", "", 1.25),
    ("IPv4, strict", "", 1.30),
    ("IPv4, owned, lax", "a header of", 1.35),
    ("IPv4, owned, lax", "", 2.30),
    ("IPv4, owned, strict", "no header", 1.95),
    ("IPv4, owned, strict", "", 1.25),
    ("IPv4, linked and written", "", 1.25),
    ("authentication header, to_bytes", "", 2.90),
    ("raw header, to_bytes", "", 1.90),
    ("raw header, write", "", 1.25),
    ("raw header", "", 1.30),
    ("fragment header", "", 1.25),
    ("authentication header", "", 1.10),
    ("C, dissect against", "", 1.10),
    ("dissect against find_payload", "", 1.10),
    ("summarize_packet against find_payload", "", 1.10),
    ("header 44 against dissect", "in a header", 2.00),
    ("header 44 against dissect", "header beyond", 2.00),
    ("header 44 against dissect", "late hop by hop", 2.00),
    ("header 44 against dissect", "", 1.25),
    ("C, header 44 against dissect", "", 1.25),
    ("the tool", "", 1.10),
];

/// A row at one alignment, as printed by `measure`.
#[derive(Clone)]
pub struct Line {
    pub group: String,
    pub name: String,
    pub unit: String,
    pub ours: Time,
    pub original: Time,
    pub limit: Option<f64>,
}

impl Line {
    /// Parses a line written by `print`.
    pub fn parse(text: &str) -> Option<Line> {
        let fields: Vec<&str> = text.split('\t').collect();
        let [group, name, unit, times @ ..] = &fields[..] else {
            return None;
        };
        let times: Vec<f64> = times.iter().filter_map(|time| time.parse().ok()).collect();
        let [least, middle, original_least, original_middle, limit @ ..] = &times[..] else {
            return None;
        };
        Some(Line {
            group: (*group).to_owned(),
            name: (*name).to_owned(),
            unit: (*unit).to_owned(),
            ours: Time {
                least: *least,
                middle: *middle,
            },
            original: Time {
                least: *original_least,
                middle: *original_middle,
            },
            limit: limit.first().copied(),
        })
    }

    pub fn print(&self) {
        let Line {
            group,
            name,
            unit,
            ours,
            original,
            limit,
        } = self;
        let limit = limit.map_or(String::new(), |limit| format!("\t{limit}"));
        println!(
            "{group}\t{name}\t{unit}\t{}\t{}\t{}\t{}{limit}",
            ours.least, ours.middle, original.least, original.middle
        );
    }

    fn ratio(&self) -> f64 {
        self.ours.least / self.original.least
    }

    fn middle_ratio(&self) -> f64 {
        self.ours.middle / self.original.middle
    }

    /// Keeps the minimum of two measurements of the same row at the same alignment.
    fn join(&mut self, other: &Line) {
        for (time, other) in [
            (&mut self.ours, &other.ours),
            (&mut self.original, &other.original),
        ] {
            time.least = time.least.min(other.least);
            time.middle = time.middle.min(other.middle);
        }
        self.limit = self
            .limit
            .zip(other.limit)
            .map(|(limit, other)| limit.min(other));
    }
}

/// A row over all alignments.
struct Judged {
    line: Line,
    mean: f64,
    middle: f64,
    range: (f64, f64),
    goal: f64,
}

/// Prints the tables for these files, one file per alignment. Returns whether no ratio is above its goal.
pub fn report(files: &[String]) -> bool {
    let mut order: Vec<String> = Vec::new();
    let mut rows: BTreeMap<String, Vec<Line>> = BTreeMap::new();
    for file in files {
        let text = std::fs::read_to_string(file).unwrap_or_else(|e| panic!("{file}: {e}"));
        let mut here: BTreeMap<String, Line> = BTreeMap::new();
        for line in text.lines().filter_map(Line::parse) {
            if !rows.contains_key(&line.name) && !here.contains_key(&line.name) {
                order.push(line.name.clone());
            }
            here.entry(line.name.clone())
                .and_modify(|kept| kept.join(&line))
                .or_insert(line);
        }
        for (name, line) in here {
            rows.entry(name).or_default().push(line);
        }
    }
    let judged: Vec<Judged> = order.iter().map(|name| judge(&rows[name])).collect();
    print_rows(&judged);
    print_groups(&judged);
    let above = judged.iter().filter(|row| row.is_above()).count();
    println!("{} rows, {above} above their goal", judged.len());
    above == 0
}

fn judge(lines: &[Line]) -> Judged {
    let mut line = lines[0].clone();
    lines.iter().for_each(|other| line.join(other));
    let ratios: Vec<f64> = lines.iter().map(Line::ratio).collect();
    let count = lines.len() as f64;
    let goal = OWN_GOALS
        .iter()
        .find(|(begin, part, _)| line.name.starts_with(begin) && line.name.contains(part))
        .map_or(GOAL, |(_, _, goal)| *goal);
    Judged {
        mean: ratios.iter().sum::<f64>() / count,
        middle: lines.iter().map(Line::middle_ratio).sum::<f64>() / count,
        range: range(&ratios),
        goal,
        line,
    }
}

fn range(ratios: &[f64]) -> (f64, f64) {
    ratios.iter().fold((f64::MAX, 0.0), |(low, high), ratio| {
        (low.min(*ratio), high.max(*ratio))
    })
}

impl Judged {
    /// Compares with two decimals.
    fn is_above(&self) -> bool {
        (self.mean * 100.0).round() > (self.goal * 100.0).round()
    }
}

fn print_rows(rows: &[Judged]) {
    println!("| What | Ours, ns | Original, ns | Ratio | Range | Of the middles | Limit | Goal |");
    println!("|---|---|---|---|---|---|---|---|");
    for row in rows {
        let Line {
            name,
            unit,
            ours,
            original,
            limit,
            ..
        } = &row.line;
        let limit = limit.map_or(String::new(), |limit| {
            format!("{:.2}", limit / original.least)
        });
        let above = if row.is_above() { ", above" } else { "" };
        println!(
            "| {name} | {:.2} a {unit} | {:.2} | {:.2} | {:.2} to {:.2} | {:.2} | {limit} | {:.2}{above} |",
            ours.least, original.least, row.mean, row.range.0, row.range.1, row.middle, row.goal
        );
    }
    println!("\nTimes are the minimum of all runs. The limit is the ratio of a bare walk in C, which only finds where");
    println!("each chain ends. The mean and the range are over the alignments of our code.\n");
}

/// Prints a line for each group of rows: the mean ratio, and the lowest and highest ratio of any row at any alignment.
fn print_groups(rows: &[Judged]) {
    println!("| Group | Rows | Mean ratio | Range |\n|---|---|---|---|");
    let mut groups: Vec<&str> = Vec::new();
    for row in rows {
        if !groups.contains(&row.line.group.as_str()) {
            groups.push(&row.line.group);
        }
    }
    for group in groups {
        let rows: Vec<&Judged> = rows.iter().filter(|row| row.line.group == group).collect();
        let mean = rows.iter().map(|row| row.mean).sum::<f64>() / rows.len() as f64;
        let ends: Vec<f64> = rows
            .iter()
            .flat_map(|row| [row.range.0, row.range.1])
            .collect();
        let (low, high) = range(&ends);
        println!(
            "| {group} | {} | {mean:.2} | {low:.2} to {high:.2} |",
            rows.len()
        );
    }
    println!();
}
