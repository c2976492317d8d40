//! A recorded sample: short scripts that together see every number that the crate's driver gives, every kind of dump line, every
//! reset over every table with something in it, a synchronisation pair that outlives a termination, a source that stood
//! before two others and is listed again, discovery sweeps behind refused expiries, polls while the discovery expiry is not the
//! crate's, stored settings that are loaded again, records of both layouts, and each fault of a record.

use crate::compare::{Answers, Side, concatenated, is_silent, number};
use crate::scripts::{self, KINDS};
use std::collections::BTreeSet;

/// Both files together stay below this many bytes.
const MOST_BYTES: usize = 1_000_000;

/// What every sample must have seen.
const NUMBERS: [usize; 15] = [0, 2, 3, 4, 5, 6, 7, 8, 9, 14, 15, 20, 21, 22, 23];
const MARKS: [&str; 11] = ["d", "dc", "y", "yc", "w", "l", "p", "pp", "q", "qp", "."];
const RESETS: [&str; 3] = ["reset", "reset_pairs", "reset_discovery"];
const TABLES: [&str; 5] = ["d", "y", "w", "p", "q"];
const AGAIN: &str = "a source that stood before two others is listed again, up to a dump";
const SHORT: &str = "a discovery sweep behind a refused short expiry";
const LONG: &str = "a discovery sweep behind a refused long expiry";
const OTHER: &str = "a poll while the expiry is not the crate's";
const OUTLIVES: &str =
    "a synchronisation pair outlives a termination of an unknown data pair, up to a dump";
const LONGER: &str = "a record is stored in more than 14 bytes";
const LOADED_AGAIN: &str = "what was stored is loaded again";
const LOADS: [&str; 21] = [
    "load: layout 1 gives 0",
    "load: layout 2 gives 0",
    "load: under three bytes gives 22",
    "load: mark, layout 1 gives 22",
    "load: mark, layout 2 gives 22",
    "load: mark, layout 0 gives 22",
    "load: layout 0 gives 23",
    "load: layout 3 gives 23",
    "load: layout 1, short gives 22",
    "load: layout 2, short gives 22",
    "load: layout 2, short, byte 3 gives 22",
    "load: layout 2, byte 3 gives 23",
    "load: layout 2, byte 4 gives 23",
    "load: layout 2, byte 5 gives 23",
    "load: layout 2, byte 6 gives 23",
    "load: layout 2, byte 7 gives 23",
    "load: layout 2, low expiry gives 23",
    "load: layout 2, high expiry gives 23",
    "load by layout 1 alone: layout 1 gives 0",
    "load by layout 1 alone: layout 2 gives 23",
    "load by layout 1 alone: layout 2, short gives 23",
];

struct Candidate {
    script: Vec<String>,
    bytes: usize,
    features: BTreeSet<String>,
}

/// Chooses up to `count` scripts; answers the concatenated script and the crate's output.
pub fn choose(count: usize, reference: &Side) -> Result<(String, String), String> {
    let limits = Side {
        command: [reference.command.clone(), vec!["limits".into()]].concat(),
    };
    let mut chosen: Vec<Vec<String>> = Vec::new();
    let mut seen: BTreeSet<String> = BTreeSet::new();
    let mut spare: Vec<Candidate> = Vec::new();
    let mut bytes = 0;
    // First what brings something new, out of many; then the rest in turn of the kinds.
    for number in 0..120 {
        let batch: Vec<Vec<String>> = KINDS
            .iter()
            .map(|(kind, _)| scripts::script(kind, 1, number, true))
            .collect();
        for candidate in candidates(batch, reference, &limits)? {
            let new = candidate.features.difference(&seen).next().is_some();
            if new && chosen.len() < count && bytes + candidate.bytes < MOST_BYTES {
                seen.extend(candidate.features);
                bytes += candidate.bytes;
                chosen.push(candidate.script);
            } else {
                spare.push(candidate);
            }
        }
    }
    for candidate in spare {
        if chosen.len() < count && candidate.bytes < 6_000 && bytes + candidate.bytes < MOST_BYTES {
            bytes += candidate.bytes;
            chosen.push(candidate.script);
        }
    }
    let numbers = NUMBERS.iter().map(|n| format!("number {n}"));
    let marks = MARKS.iter().map(|m| format!("line {m}"));
    let resets = RESETS.iter().flat_map(|r| TABLES.map(|t| finding(r, t, 2)));
    let left = ["p", "q"].map(|t| change(SHORT, false, t));
    let swept = ["p", "q"].map(|t| change(LONG, true, t));
    let polled = ["d", "y", "w"].map(|t| change(OTHER, true, t));
    let up_to_dumps = [OUTLIVES, AGAIN].map(String::from);
    let records = [LONGER, LOADED_AGAIN].iter().chain(&LOADS);
    let expiries = left.into_iter().chain(swept).chain(polled);
    let all = numbers.chain(marks).chain(resets).chain(up_to_dumps);
    for wanted in all.chain(expiries).chain(records.map(|r| r.to_string())) {
        if !seen.contains(&wanted) {
            return Err(format!("the sample lacks {wanted}"));
        }
    }
    let script = concatenated(&chosen);
    let output = reference.run(&script)?;
    println!(
        "{} scripts, {} commands, {} features, {} and {} bytes",
        chosen.len(),
        chosen.iter().flatten().filter(|c| !is_silent(c)).count(),
        seen.len(),
        script.len(),
        output.len()
    );
    Ok((script, output))
}

// Scripts that stay inside the node's tables and hold proper settings, with what they see.
fn candidates(
    batch: Vec<Vec<String>>,
    reference: &Side,
    limits: &Side,
) -> Result<Vec<Candidate>, String> {
    let text = concatenated(&batch);
    let (a, b) = (reference.run(&text)?, limits.run(&text)?);
    let (mut of_crate, mut of_limits) = (Answers::new(&a), Answers::new(&b));
    // The same scripts with a dump before each command.
    let watched: Vec<Vec<String>> = batch.iter().map(|s| watched(s)).collect();
    let c = reference.run(&concatenated(&watched))?;
    let mut of_watched = Answers::new(&c);
    let mut found = Vec::new();
    for script in batch {
        let mut bytes = "fresh\n0\n".len();
        let mut features = BTreeSet::new();
        let mut same = of_crate.next("fresh") == of_limits.next("fresh");
        of_watched.next("fresh");
        let mut lasting = Vec::new();
        let mut again = Again::default();
        let mut expiry = Expiry::default();
        let mut stored = Vec::new();
        for command in &script {
            bytes += command.len() + 1;
            if is_silent(command) {
                features.insert(format!("silent {}", command.len().min(2)));
                continue;
            }
            let (Some(x), Some(y)) = (of_crate.next(command), of_limits.next(command)) else {
                return Err("a side ended early".into());
            };
            let (Some(before), Some(_)) = (of_watched.next("dump"), of_watched.next(command))
            else {
                return Err("the watched run ended early".into());
            };
            same &= x == y && !is_improper(command);
            bytes += x.len() + 1;
            note(command, x, &mut features);
            note_found(command, before, &mut lasting, &mut features);
            again.note(command, before, &mut features);
            expiry.note(command, x, before, &mut features);
            note_record(command, x, &mut stored, &mut features);
        }
        if same {
            found.push(Candidate {
                script,
                bytes,
                features,
            });
        }
    }
    Ok(found)
}

// A limit of 0, or an expiry out of its range, past the setter.
fn is_improper(command: &str) -> bool {
    match command.split_once(' ') {
        Some(("raw_limit", n)) => n.parse() == Ok(0),
        Some(("raw_expiry", n)) => n.parse().is_ok_and(|n: u32| !(2500..=60_000).contains(&n)),
        _ => false,
    }
}

fn watched(script: &[String]) -> Vec<String> {
    let commands = script.iter().filter(|c| !is_silent(c));
    commands.flat_map(|c| ["dump".into(), c.clone()]).collect()
}

// A command that found so many lines of a table.
fn finding(command: &str, table: &str, lines: usize) -> String {
    format!("{command} found {lines} {table}")
}

// What a command found: a reset or `clear_all` in each table, up to two lines; a termination of its own pairs; a dump the synchronisation
// pairs that terminations of unknown data pairs had left.
fn note_found<'a>(
    command: &str,
    before: &'a str,
    lasting: &mut Vec<&'a str>,
    features: &mut BTreeSet<String>,
) {
    let lines = |start: &str| before.lines().filter(|l| l.starts_with(start)).count();
    if command == "clear_all" || RESETS.contains(&command) {
        for table in TABLES {
            features.insert(finding(command, table, lines(&format!("{table} ")).min(2)));
        }
    }
    let fields: Vec<&str> = command.split(' ').collect();
    if let ["data", _, cid, universe, _, _, _, "64" | "96", _] = fields[..] {
        let pair = |t| format!("{t} {cid} {universe} ");
        let [data, sync] = ["d", "y"].map(|t| lines(&pair(t)));
        features.insert(format!("termination found {data} d, {sync} y"));
        if data == 0 {
            lasting.extend(before.lines().filter(|l| l.starts_with(&pair("y"))));
        }
    }
    if command == "dump" {
        if before.lines().any(|l| lasting.contains(&l)) {
            features.insert(OUTLIVES.into());
        }
        lasting.clear();
    }
}

// Sources that were listed again.
#[derive(Default)]
struct Again<'a> {
    // The source of the last command, if that was a page, and the listed sources before it.
    page: Option<(String, Vec<&'a str>)>,
    // For each the sources that stood behind it, and then itself.
    orders: Vec<Vec<&'a str>>,
}

impl<'a> Again<'a> {
    fn note(&mut self, command: &str, now: &'a str, features: &mut BTreeSet<String>) {
        let cids = now
            .lines()
            .filter_map(|l| l.strip_prefix("q ")?.split(' ').next());
        let listed: Vec<&str> = cids.collect();
        if let Some((cid, mut before)) = self.page.take()
            && let Some(place) = before.iter().position(|c| *c == cid)
            && place + 2 < before.len()
            && listed.last() == Some(&before[place])
        {
            before.drain(..place);
            before.rotate_left(1);
            self.orders.push(before);
        }
        let fields: Vec<&str> = command.split(' ').collect();
        match fields[..] {
            ["discovery", _, cid, ..] => self.page = Some((cid.into(), listed)),
            ["dump"] => {
                let held =
                    |order: &Vec<&str>| listed.iter().filter(|c| order.contains(c)).eq(order);
                if self.orders.iter().any(held) {
                    features.insert(AGAIN.into());
                }
            }
            _ => {}
        }
    }
}

// A command that dropped or left an entry of a table.
fn change(what: &str, dropped: bool, table: &str) -> String {
    let verb = if dropped { "drops" } else { "leaves" };
    format!("{what} {verb} {table}")
}

// The discovery expiry as a script has set it.
#[derive(Default)]
struct Expiry<'a> {
    // Whether it is not the crate's, and which was refused since.
    other: bool,
    refused: Option<&'static str>,
    // The last command, if it is one of those above, and the dump before it.
    before: Option<(&'static str, &'a str)>,
}

impl<'a> Expiry<'a> {
    fn note(&mut self, command: &str, answer: &str, now: &'a str, features: &mut BTreeSet<String>) {
        if let Some((what, before)) = self.before.take() {
            for line in before.lines() {
                let dropped = !now.lines().any(|l| l == line);
                for table in TABLES.iter().filter(|t| line.starts_with(&format!("{t} "))) {
                    features.insert(change(what, dropped, table));
                }
            }
        }
        match command.split_once(' ') {
            Some(("expiry" | "raw_expiry", n)) if answer == "0" => {
                self.other = n != "2500";
                self.refused = None;
            }
            Some(("load_settings", record)) if answer == "0" => {
                self.other =
                    !record.starts_with("535402") || record.get(20..28) != Some("000009c4");
                self.refused = None;
            }
            Some(("expiry", n)) if answer == "20" => {
                self.refused = Some(if n.len() < 5 { SHORT } else { LONG });
            }
            Some(("sweep", _)) => self.before = self.refused.map(|what| (what, now)),
            Some(("poll", _)) if self.other => self.before = Some((OTHER, now)),
            _ => {}
        }
    }
}

// What a line of stored settings shows.
fn note_record(
    command: &str,
    answer: &str,
    stored: &mut Vec<String>,
    features: &mut BTreeSet<String>,
) {
    let fields: Vec<&str> = command.split(' ').collect();
    match (fields[0], number(answer)) {
        ("store_settings", Some(0)) => {
            let record = &answer[2..];
            if 28 < record.len() {
                features.insert(LONGER.into());
            }
            stored.push(record.into());
        }
        ("load_settings", Some(n)) => {
            if n == 0 && stored.iter().any(|r| r == fields[1]) {
                features.insert(LOADED_AGAIN.into());
            }
            let load = ["load", "load by layout 1 alone"][fields.len() - 2];
            let record = record_facts(&bytes_of(fields[1])).join(", ");
            features.insert(format!("{load}: {record} gives {n}"));
        }
        _ => {}
    }
}

fn bytes_of(field: &str) -> Vec<u8> {
    let places = (0..field.len() / 2).map(|i| 2 * i);
    places
        .filter_map(|i| u8::from_str_radix(&field[i..i + 2], 16).ok())
        .collect()
}

// A record's layout and all its faults.
fn record_facts(record: &[u8]) -> Vec<String> {
    let &[first, second, layout, ref fields @ ..] = record else {
        return vec!["under three bytes".into()];
    };
    let mut facts = Vec::new();
    if [first, second] != [0x53, 0x54] {
        facts.push("mark".into());
    }
    facts.push(format!("layout {}", layout.min(3)));
    if layout == 1 && fields.len() < 7 || layout == 2 && fields.len() < 11 {
        facts.push("short".into());
    }
    let over = fields.iter().take(5).enumerate().filter(|(_, b)| 1 < **b);
    facts.extend(over.map(|(i, _)| format!("byte {}", i + 3)));
    if let (2, Some(expiry)) = (layout, fields.get(7..11)) {
        let expiry = u32::from_be_bytes(expiry.try_into().expect("four bytes"));
        if expiry < 2500 {
            facts.push("low expiry".into());
        } else if 60_000 < expiry {
            facts.push("high expiry".into());
        }
    }
    facts
}

fn note(command: &str, answer: &str, features: &mut BTreeSet<String>) {
    let word = command.split(' ').next().unwrap_or("");
    if command == "dump" {
        for line in answer.lines() {
            let fields: Vec<&str> = line.split(' ').collect();
            features.insert(format!("line {}", fields[0]));
            let lacking = fields.iter().position(|f| *f == "-").unwrap_or(0);
            features.insert(format!("line {} without {lacking}", fields[0]));
            if let ["w", _, _, _, preview, ..] = fields[..] {
                features.insert(format!("waiting with preview {preview}"));
            }
        }
        let kinds: BTreeSet<&str> = answer.lines().filter_map(|l| l.split(' ').next()).collect();
        features.insert(format!("dump {kinds:?}"));
        return;
    }
    let Some(n) = number(answer) else {
        features.insert(format!("error {word} {}", command.split(' ').count()));
        return;
    };
    features.insert(format!("number {n}"));
    features.insert(format!("{word} gives {n}"));
    let fields: Vec<&str> = answer.split(' ').collect();
    match fields[..] {
        ["7", _, _, difference] => features.insert(format!("{word} difference {difference}")),
        ["0", "release", records, _, _] => features.insert(format!("{word} releases {records}")),
        ["6", count] => features.insert(format!("{word} counts {count}")),
        [_, value] if word != "store_settings" => {
            features.insert(format!("{word} {n} {}", value.len()))
        }
        _ => false,
    };
}
