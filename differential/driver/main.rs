//! Reads a replay script on standard input, carries it out on the crate's test copy and prints the answers.
//! With the argument `limits` it also gives document 01's stops 1 and 10 to 13, as the port would.
//! At a command that the crate cannot carry out it says so, with the line's number, and ends with status 2.

#![allow(warnings)]

mod clock;
mod error;
mod packet;
mod receive;
mod record;
mod sacn_parse_pack_error;
mod script;

use std::io::{self, BufWriter, Read, Write};

fn main() -> io::Result<()> {
    let limits = std::env::args().nth(1).is_some_and(|a| a == "limits");
    let mut script = Vec::new();
    io::stdin().lock().read_to_end(&mut script)?;
    let mut out = BufWriter::with_capacity(1 << 16, io::stdout().lock());
    let mut replay = receive::access::Replay::new(limits);
    let mut lines: Vec<&[u8]> = script.split(|b| *b == b'\n').collect();
    // What stands behind the last line's end is no line.
    if lines.last().is_some_and(|l| l.is_empty()) {
        lines.pop();
    }
    for (place, line) in lines.into_iter().enumerate() {
        // A line may end in carriage return and line feed.
        let line = line.strip_suffix(b"\r").unwrap_or(line);
        if line.is_empty() || line[0] == b'#' {
            continue;
        }
        match std::str::from_utf8(line).ok().and_then(script::parse) {
            Some(command) => {
                if let Some(why) = replay.outside(&command) {
                    out.flush()?;
                    eprintln!("line {}: {why}", place + 1);
                    std::process::exit(2);
                }
                replay.carry_out(command, &mut out)?
            }
            None => writeln!(out, "error")?,
        }
    }
    out.flush()
}
