//! The differential run: the crate's test copy against the port, on random or given replay scripts.

mod compare;
mod copy;
mod mutants;
mod records;
mod rng;
mod sample;
mod scripts;

use compare::{Counts, Side, begun, compare_many, compare_one, shrink};
use copy::Places;
use std::process::ExitCode;
use std::time::Instant;

const BATCH: u64 = 100;
// Run before the random scripts.
const TRIALS: &str = "differential/trials.script";

fn main() -> ExitCode {
    let arguments: Vec<String> = std::env::args().skip(1).collect();
    let words: Vec<&str> = arguments.iter().map(String::as_str).collect();
    let result = match words[..] {
        ["run", ref rest @ ..] => run(rest),
        ["script", kind, seed, number] => print_script(kind, seed, number),
        ["driver"] => driver(),
        ["benchmark"] => benchmark(),
        ["sample", count, script, output] => record(count, script, output),
        ["mutants", ref rest @ ..] => try_mutants(rest),
        ["kinds"] => {
            scripts::KINDS
                .iter()
                .for_each(|(kind, what)| println!("{kind}: {what}"));
            Ok(true)
        }
        _ => Err("unknown arguments".into()),
    };
    match result {
        Ok(true) => ExitCode::SUCCESS,
        Ok(false) => ExitCode::from(1),
        Err(why) => {
            eprintln!("{why}");
            ExitCode::from(2)
        }
    }
}

fn parsed(word: Option<&&str>, default: u64) -> Result<u64, String> {
    word.map_or(Ok(default), |w| {
        w.parse().map_err(|_| format!("not a number: {w}"))
    })
}

fn reference(places: &Places) -> Result<Side, String> {
    let path = copy::build(places, None)?;
    Ok(Side {
        command: vec![path.display().to_string()],
    })
}

fn driver() -> Result<bool, String> {
    println!("{}", reference(&Places::new())?.command[0]);
    Ok(true)
}

fn benchmark() -> Result<bool, String> {
    println!("{}", copy::build_benchmark(&Places::new())?.display());
    Ok(true)
}

fn print_script(kind: &str, seed: &str, number: &str) -> Result<bool, String> {
    let (seed, number) = (parsed(Some(&seed), 0)?, parsed(Some(&number), 0)?);
    scripts::script(kind, seed, number, false)
        .iter()
        .for_each(|l| println!("{l}"));
    Ok(true)
}

fn run(words: &[&str]) -> Result<bool, String> {
    let places = Places::new();
    let reference = reference(&places)?;
    let port = Side::new(&std::env::var("PORT").unwrap_or("crates/replay/out/replay".into()));
    if let Some(path) = words.first()
        && path.parse::<u64>().is_err()
    {
        return own_script(path, &reference, &port);
    }
    println!("document 01's trial values:");
    if !own_script(TRIALS, &reference, &port)? {
        return Ok(false);
    }
    let (count, seed) = (parsed(words.first(), 200)?, parsed(words.get(1), 1)?);
    let start = Instant::now();
    let mut counts = Counts::default();
    let only = words.get(2);
    if let Some(kind) = only
        && !scripts::KINDS.iter().any(|(k, _)| k == kind)
    {
        return Err(format!("no kind {kind}"));
    }
    for (kind, _) in scripts::KINDS {
        if only.is_some_and(|k| k != kind) {
            continue;
        }
        // Scripts of the kind `full` are long: a tenth as many.
        let wanted = if *kind == "full" {
            count.div_ceil(10)
        } else {
            count
        };
        let mut made = 0;
        while made < wanted {
            let size = if *kind == "full" { BATCH / 5 } else { BATCH }.min(wanted - made);
            let batch: Vec<Vec<String>> = (made..made + size)
                .map(|i| scripts::script(kind, seed, i, false))
                .collect();
            if let Some(i) = compare_many(&batch, &reference, &port, true, &mut counts)? {
                println!(
                    "{kind}, seed {seed}, script {}: a difference",
                    made + i as u64
                );
                let mut script = batch[i].clone();
                let alone = compare_one(&script, &reference, &port, true, &mut counts)?;
                if alone.is_none() {
                    println!("it needs scripts before it: `fresh` leaves something");
                    script = batch[..=i].iter().flat_map(|s| begun(s)).collect();
                }
                report(&places, &script, &reference, &port)?;
                return Ok(false);
            }
            made += size;
        }
        println!(
            "{kind}: {wanted} scripts, no difference ({} commands, {:.0} s so far)",
            counts.commands,
            start.elapsed().as_secs_f64()
        );
    }
    counts.print();
    Ok(true)
}

fn own_script(path: &str, reference: &Side, port: &Side) -> Result<bool, String> {
    let text = std::fs::read_to_string(path).map_err(|e| format!("{path}: {e}"))?;
    let script: Vec<String> = text.lines().map(String::from).collect();
    let mut counts = Counts::default();
    let difference = compare_one(&script, reference, port, true, &mut counts)?;
    if let Some(d) = &difference {
        println!("line {}: {}: {}", d.place + 1, d.why, script[d.place]);
        print_both(&script[..=d.place], reference, port)?;
    } else {
        println!("no difference");
    }
    counts.print();
    Ok(difference.is_none())
}

// The last command's answers on both sides.
fn print_both(script: &[String], reference: &Side, port: &Side) -> Result<(), String> {
    let text: String = script.iter().map(|l| format!("{l}\n")).collect();
    for (name, side) in [("crate", reference), ("port", port)] {
        let output = side.run(&text)?;
        let mut answers = compare::Answers::new(&output);
        let mut last = None;
        for command in script.iter().filter(|c| !compare::is_silent(c)) {
            last = answers.next(command);
        }
        println!("-- {name}\n{}", last.unwrap_or("(no answer)"));
    }
    Ok(())
}

fn report(places: &Places, script: &[String], reference: &Side, port: &Side) -> Result<(), String> {
    let small = shrink(script, reference, port, true);
    let text: String = small.iter().map(|l| format!("{l}\n")).collect();
    for (name, side) in [("crate", reference), ("port", port)] {
        let path = places.work.join(format!("difference.{name}"));
        std::fs::write(&path, side.run(&text)?).map_err(|e| e.to_string())?;
    }
    let path = places.work.join("difference.script");
    std::fs::write(&path, &text).map_err(|e| e.to_string())?;
    println!(
        "-- script ({}; the answers beside it)\n{text}",
        path.display()
    );
    print_both(&small, reference, port)
}

// The scripts of a mutant's trial: the kinds in turn.
fn trial(seed: u64, number: u64) -> Vec<String> {
    let kinds = scripts::KINDS.len() as u64;
    let (kind, _) = scripts::KINDS[(number % kinds) as usize];
    scripts::script(kind, seed, number / kinds, false)
}

// The scripts of a file, each of which begins with `fresh`.
fn scripts_of(path: &str) -> Result<Vec<Vec<String>>, String> {
    let text = std::fs::read_to_string(path).map_err(|e| format!("{path}: {e}"))?;
    let mut scripts: Vec<Vec<String>> = Vec::new();
    for line in text.lines() {
        if line == "fresh" || scripts.is_empty() {
            scripts.push(Vec::new());
        }
        if line != "fresh" {
            scripts.last_mut().expect("a script").push(line.into());
        }
    }
    Ok(scripts)
}

fn record(count: &str, script: &str, output: &str) -> Result<bool, String> {
    let reference = reference(&Places::new())?;
    let (text, answers) = sample::choose(parsed(Some(&count), 0)? as usize, &reference)?;
    std::fs::write(script, text).map_err(|e| format!("{script}: {e}"))?;
    std::fs::write(output, answers).map_err(|e| format!("{output}: {e}"))?;
    Ok(true)
}

// Builds each mutant and runs it against the reference. The second word picks mutants by a part of their name.
fn try_mutants(words: &[&str]) -> Result<bool, String> {
    let places = Places::new();
    let reference = reference(&places)?;
    let wanted = words.get(1).unwrap_or(&"");
    let seed = parsed(words.get(2), 1)?;
    let (trials, named): (Vec<Vec<String>>, bool) = match words.first() {
        Some(path) if path.parse::<u64>().is_err() => (scripts_of(path)?, false),
        count => (
            (0..parsed(count, 130)?).map(|i| trial(seed, i)).collect(),
            true,
        ),
    };
    let count = trials.len();
    let mut survivors = 0;
    let mut latest = 0;
    let mut tried = 0;
    for (mutants, equivalent) in [(mutants::MUTANTS, false), (mutants::EQUIVALENT, true)] {
        for mutant in mutants.iter().filter(|m| m.name.contains(wanted)) {
            let found = match try_mutant(&places, mutant, &reference, &trials) {
                Ok(found) => found,
                Err(why) => {
                    println!("| {} | {} | {why} |", mutant.name, mutant.what);
                    survivors += 1;
                    continue;
                }
            };
            let shown = match found {
                Some(i) if named => {
                    format!(
                        "script {}, {}",
                        i + 1,
                        scripts::KINDS[i % scripts::KINDS.len()].0
                    )
                }
                Some(i) => format!("script {}", i + 1),
                None if equivalent => "not found, as it should be".into(),
                None => "NOT FOUND".into(),
            };
            println!("| {} | {} | {shown} |", mutant.name, mutant.what);
            tried += 1;
            survivors += usize::from(found.is_some() == equivalent);
            if !equivalent {
                latest = latest.max(found.map_or(0, |i| i + 1));
            }
        }
    }
    println!(
        "{tried} mutants, {survivors} not as they should be; the last was found by script {latest} of {count}"
    );
    Ok(survivors == 0)
}

fn try_mutant(
    places: &Places,
    mutant: &mutants::Mutant,
    reference: &Side,
    trials: &[Vec<String>],
) -> Result<Option<usize>, String> {
    let path = copy::build(places, Some(mutant))?;
    let side = Side {
        command: vec![path.display().to_string()],
    };
    let mut counts = Counts::default();
    let mut done = 0;
    for batch in trials.chunks(scripts::KINDS.len()) {
        if let Some(i) = compare_many(batch, reference, &side, false, &mut counts)? {
            return Ok(Some(done + i));
        }
        done += batch.len();
    }
    Ok(None)
}
