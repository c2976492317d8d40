//! Runs a script on both sides and compares the answers, command by command.

use std::collections::BTreeMap;
use std::io::{Read, Write};
use std::process::{Child, Command, Stdio};
use std::sync::mpsc;
use std::thread;
use std::time::Duration;

/// A program that reads a replay script and prints the answers: a path and its arguments.
#[derive(Clone)]
pub struct Side {
    pub command: Vec<String>,
}

/// A side that has not ended by then is stopped, and the run with it.
const PATIENCE: Duration = Duration::from_secs(300);

impl Side {
    pub fn new(command: &str) -> Side {
        Side {
            command: command.split(' ').map(String::from).collect(),
        }
    }

    fn start(&self, stdout: Stdio, stderr: Stdio) -> Result<Child, String> {
        Command::new(&self.command[0])
            .args(&self.command[1..])
            .stdin(Stdio::piped())
            .stdout(stdout)
            .stderr(stderr)
            .spawn()
            .map_err(|e| format!("{}: {e}", self.command[0]))
    }

    pub fn run(&self, script: &str) -> Result<String, String> {
        let mut child = self.start(Stdio::piped(), Stdio::null())?;
        let mut stdin = child.stdin.take().expect("a pipe");
        let input = script.as_bytes().to_vec();
        // A side that ends early leaves the rest of its script unread.
        let writer = thread::spawn(move || stdin.write_all(&input).is_ok());
        let output = read_patiently(&mut child);
        let _ = child.wait();
        let _ = writer.join();
        let output = output.ok_or(format!(
            "{} has not ended after {} s",
            self.command[0],
            PATIENCE.as_secs()
        ))?;
        Ok(String::from_utf8_lossy(&output).into_owned())
    }

    /// What the side says on standard error to a script at which it ends.
    fn complaint(&self, script: &[String]) -> Result<String, String> {
        let mut child = self.start(Stdio::null(), Stdio::piped())?;
        let mut stdin = child.stdin.take().expect("a pipe");
        let _ = stdin.write_all(lines(script).as_bytes());
        drop(stdin);
        let output = child.wait_with_output().map_err(|e| e.to_string())?;
        Ok(String::from_utf8_lossy(&output.stderr).trim_end().into())
    }
}

fn lines(script: &[String]) -> String {
    script.iter().map(|l| format!("{l}\n")).collect()
}

fn read_patiently(child: &mut Child) -> Option<Vec<u8>> {
    let mut stdout = child.stdout.take().expect("a pipe");
    let (done, ended) = mpsc::channel();
    let reader = thread::spawn(move || {
        let mut output = Vec::new();
        let _ = stdout.read_to_end(&mut output);
        let _ = done.send(());
        output
    });
    if ended.recv_timeout(PATIENCE).is_err() {
        let _ = child.kill();
        return None;
    }
    reader.join().ok()
}

/// Lines that print nothing.
pub fn is_silent(line: &str) -> bool {
    line.is_empty() || line.starts_with('#')
}

/// The output cut into answers: a line for each command, and for `dump` all lines up to the one that is `.`.
/// A command for which no output is left has none.
pub struct Answers<'a> {
    rest: &'a str,
}

impl<'a> Answers<'a> {
    pub fn new(output: &'a str) -> Answers<'a> {
        Answers { rest: output }
    }

    fn line(&mut self) -> Option<&'a str> {
        let end = self.rest.find('\n')?;
        let line = &self.rest[..end];
        self.rest = &self.rest[end + 1..];
        Some(line)
    }

    pub fn next(&mut self, command: &str) -> Option<&'a str> {
        let start = self.rest;
        let first = self.line()?;
        if command == "dump" {
            let mut line = first;
            while line != "." {
                line = self.line()?;
            }
            return Some(&start[..start.len() - self.rest.len() - 1]);
        }
        Some(first)
    }
}

/// The number with which an answer begins, if it begins with one.
pub fn number(answer: &str) -> Option<usize> {
    answer.split(' ').next()?.parse().ok()
}

// A stop that the crate has not; the 15 of `store_settings` is the driver's too.
fn is_cut(command: &str, number: usize) -> bool {
    matches!(number, 1 | 10..=13 | 15) && !command.starts_with("store_settings ")
}

#[derive(Default, Clone)]
pub struct Counts {
    pub scripts: usize,
    pub commands: usize,
    pub dumps: usize,
    pub errors: usize,
    pub releases: usize,
    /// How often each number was seen, and how often it cut a script.
    pub numbers: BTreeMap<usize, usize>,
    pub cuts: BTreeMap<usize, usize>,
}

impl Counts {
    pub fn print(&self) {
        println!(
            "{} scripts, {} commands, of them {} dumps, {} error lines, {} releases",
            self.scripts, self.commands, self.dumps, self.errors, self.releases
        );
        let seen = |numbers: &BTreeMap<usize, usize>| {
            let parts: Vec<String> = numbers
                .iter()
                .map(|(number, n)| format!("{number}: {n}"))
                .collect();
            if parts.is_empty() {
                "none".into()
            } else {
                parts.join(", ")
            }
        };
        println!("numbers seen on both sides: {}", seen(&self.numbers));
        println!("scripts cut at: {}", seen(&self.cuts));
    }

    fn count(&mut self, command: &str, answer: &str) {
        self.commands += 1;
        if command == "dump" {
            self.dumps += 1;
        } else if let Some(n) = number(answer) {
            *self.numbers.entry(n).or_default() += 1;
            self.releases += usize::from(answer.starts_with("0 release"));
        } else {
            self.errors += 1;
        }
    }
}

/// Where two runs of one script part.
pub struct Difference {
    /// The command's place in the script.
    pub place: usize,
    pub why: String,
}

/// Compares the answers of both sides to one script. `limits` says that the port side has document 01's tables:
/// a script is cut, up to the next `fresh`, where it gives 1, 10 to 13 or a call's 15, if the crate's state bears it out; and
/// a state beyond the tables is a difference.
pub fn compare(
    script: &[String],
    of_crate: &mut Answers,
    of_port: &mut Answers,
    reference: &Side,
    limits: bool,
    counts: &mut Counts,
) -> Result<Option<Difference>, String> {
    counts.scripts += 1;
    let mut cut = false;
    let mut found: Option<Difference> = None;
    for (place, command) in script.iter().enumerate() {
        if is_silent(command) {
            continue;
        }
        if command == "fresh" {
            cut = false;
        }
        // Read on to the end of the script even behind a cut, so that the next script's answers follow.
        let (a, b) = (of_crate.next(command), of_port.next(command));
        if cut || found.is_some() {
            continue;
        }
        let Some(a) = a else {
            return Err(format!(
                "the crate's side ended at line {}: {command}\n{}",
                place + 1,
                reference.complaint(&script[..=place])?
            ));
        };
        let Some(b) = b else {
            found = Some(Difference {
                place,
                why: "the port's side ended here".into(),
            });
            continue;
        };
        if limits
            && let Some(n) = number(b)
            && is_cut(command, n)
        {
            match unjustified(&script[..place], command, b, reference)? {
                None => {
                    *counts.cuts.entry(n).or_default() += 1;
                    cut = true;
                }
                Some(why) => found = Some(Difference { place, why }),
            }
            continue;
        }
        counts.count(command, a);
        if limits && b != "error" && too_long(command).is_some() {
            found = Some(Difference {
                place,
                why: "a field is too long, and no 1 was given".into(),
            });
        } else if a != b {
            found = Some(Difference {
                place,
                why: "the answers differ".into(),
            });
        } else if limits
            && command == "dump"
            && let Some(why) = Sizes::of(a).over()
        {
            found = Some(Difference { place, why });
        }
    }
    Ok(found)
}

/// How much a dump holds.
struct Sizes {
    data: usize,
    sync: usize,
    waiting: usize,
    pages: usize,
    listened: usize,
}

impl Sizes {
    fn of(dump: &str) -> Sizes {
        let count = |mark: &str| dump.lines().filter(|l| l.starts_with(mark)).count();
        Sizes {
            data: count("d "),
            sync: count("y "),
            waiting: count("w "),
            pages: count("pp ") + count("qp "),
            listened: listened(dump).len(),
        }
    }

    fn over(&self) -> Option<String> {
        let tables = [
            ("data pairs", self.data, 1024),
            ("synchronisation pairs", self.sync, 1024),
            ("waiting universes", self.waiting, 64),
            ("pages", self.pages, 64),
            ("listened universes", self.listened, 1024),
        ];
        tables
            .iter()
            .find(|(_, held, most)| most < held)
            .map(|(what, held, _)| format!("{held} {what} are held, and no stop was given"))
    }
}

fn listened(dump: &str) -> Vec<u16> {
    let line = dump
        .lines()
        .find_map(|l| l.strip_prefix("l "))
        .unwrap_or("-");
    line.split(',').filter_map(|u| u.parse().ok()).collect()
}

fn length(field: &str) -> usize {
    if field == "-" { 0 } else { field.len() / 2 }
}

fn count(field: &str) -> usize {
    if field == "-" {
        0
    } else {
        field.split(',').count()
    }
}

// The length that document 01's 1 returns for a step, the name's before the list's.
fn too_long(command: &str) -> Option<usize> {
    let over = |length: usize, most: usize| (most < length).then_some(length);
    let fields: Vec<&str> = command.split(' ').collect();
    match fields[..] {
        ["data", _, _, _, _, _, _, _, values] => over(length(values), 513),
        ["discovery", _, _, _, _, name, list] => over(length(name), 63).or(over(count(list), 512)),
        _ => None,
    }
}

// Whether a stop that the crate has not is one that document 01 gives: the crate's state before the command,
// polled at the command's reading, must stand at the table's size. Answers why it is not, if so.
fn unjustified(
    before: &[String],
    command: &str,
    answer: &str,
    reference: &Side,
) -> Result<Option<String>, String> {
    let fields: Vec<&str> = command.split(' ').collect();
    let mut script: Vec<&str> = before.iter().map(String::as_str).collect();
    let poll = format!("poll {}", fields.get(1).unwrap_or(&"0"));
    if matches!(fields[0], "data" | "sync" | "discovery") {
        script.push(&poll);
    }
    script.push("dump");
    let mut text = script.join("\n");
    text.push('\n');
    let output = reference.run(&text)?;
    let mut answers = Answers::new(&output);
    let mut last = "";
    for command in script.iter().filter(|c| !is_silent(c)) {
        last = answers
            .next(command)
            .ok_or("the crate's side ended early")?;
    }
    let sizes = Sizes::of(last);
    let held = |line: String| last.lines().any(|l| l.starts_with(&line));
    let universes = listened(last);
    let right = match (number(answer).unwrap_or(0), &fields[..]) {
        (1, _) => too_long(command).is_some_and(|length| answer == format!("1 {length}")),
        (10, ["data", _, cid, universe, ..]) => {
            answer == "10" && sizes.data == 1024 && !held(format!("d {cid} {universe} "))
        }
        (10, ["sync", _, cid, address, _]) => {
            answer == "10" && sizes.sync == 1024 && !held(format!("y {cid} {address} "))
        }
        (11, ["data", _, _, _, address, ..]) => {
            let new = address
                .parse()
                .is_ok_and(|a: u16| a != 0 && !universes.contains(&a));
            answer == "11" && sizes.listened == 1024 && new
        }
        (11, ["listen", list]) => {
            let mut all = universes.clone();
            all.extend(list.split(',').filter_map(|u| u.parse::<u16>().ok()));
            all.sort();
            all.dedup();
            answer == "11" && 1024 < all.len()
        }
        (12, ["data", _, _, universe, ..]) => {
            answer == "12" && sizes.waiting == 64 && !held(format!("w {universe} "))
        }
        (13, ["discovery", ..]) => answer == "13" && 64 <= sizes.pages,
        _ => false,
    };
    Ok((!right).then(|| "the crate's state gives no ground for this stop".into()))
}

/// Compares one script by itself.
pub fn compare_one(
    script: &[String],
    reference: &Side,
    port: &Side,
    limits: bool,
    counts: &mut Counts,
) -> Result<Option<Difference>, String> {
    let text = lines(script);
    let (a, b) = (reference.run(&text)?, port.run(&text)?);
    compare(
        script,
        &mut Answers::new(&a),
        &mut Answers::new(&b),
        reference,
        limits,
        counts,
    )
}

/// Compares many scripts in one run of each side, with `fresh` between them. Answers the first that differs.
pub fn compare_many(
    scripts: &[Vec<String>],
    reference: &Side,
    port: &Side,
    limits: bool,
    counts: &mut Counts,
) -> Result<Option<usize>, String> {
    let text = concatenated(scripts);
    let (a, b) = (reference.run(&text)?, port.run(&text)?);
    let (mut of_crate, mut of_port) = (Answers::new(&a), Answers::new(&b));
    for (i, script) in scripts.iter().enumerate() {
        let script = begun(script);
        let found = compare(
            &script,
            &mut of_crate,
            &mut of_port,
            reference,
            limits,
            counts,
        )?;
        if found.is_some() {
            return Ok(Some(i));
        }
    }
    Ok(None)
}

/// The script with `fresh` before it.
pub fn begun(script: &[String]) -> Vec<String> {
    let mut all = vec!["fresh".to_string()];
    all.extend_from_slice(script);
    all
}

/// One script of many: each begins with `fresh`.
pub fn concatenated(scripts: &[Vec<String>]) -> String {
    let lines = scripts.iter().flat_map(|s| begun(s));
    lines.map(|l| l + "\n").collect()
}

/// The smallest script that still differs: commands are left out as long as that is so, then the script ends
/// at the difference and long value lists are shortened.
pub fn shrink(script: &[String], reference: &Side, port: &Side, limits: bool) -> Vec<String> {
    let mut ignored = Counts::default();
    let mut differs = |script: &[String]| {
        compare_one(script, reference, port, limits, &mut ignored)
            .ok()
            .flatten()
            .map(|d| d.place)
    };
    let mut best = script.to_vec();
    let Some(place) = differs(&best) else {
        return best;
    };
    best.truncate(place + 1);
    let mut size = best.len() / 2;
    while 0 < size {
        let mut at = 0;
        let mut smaller = false;
        while at < best.len() {
            let mut tried = best.clone();
            tried.drain(at..(at + size).min(best.len()));
            match differs(&tried) {
                Some(place) => {
                    tried.truncate(place + 1);
                    best = tried;
                    smaller = true;
                }
                None => at += size,
            }
        }
        if !smaller || 1 < size {
            size /= 2;
        }
    }
    for i in 0..best.len() {
        while let Some((head, tail)) = best[i].rsplit_once(' ') {
            let shorter = if best[i].starts_with("data") && 2 < tail.len() {
                format!("{head} {}", &tail[..2 * (tail.len() / 4)])
            } else if best[i].starts_with("discovery") || best[i].starts_with("listen ") {
                let Some((front, _)) = tail.rsplit_once(',') else {
                    break;
                };
                format!("{head} {front}")
            } else {
                break;
            };
            let mut tried = best.clone();
            tried[i] = if shorter.ends_with(' ') {
                format!("{shorter}-")
            } else {
                shorter
            };
            if differs(&tried).is_none() {
                break;
            }
            best = tried;
        }
    }
    best
}
