//! Random scripts through this crate and through the replay program of docs/REPLAY.md, and every answer compared.
//!
//! TAMBURELVI_REPLAY is the program with its arguments (default crates/replay/out/replay in the root of the repository, which `bindings/rust/run` builds). Without it the test fails.

use std::collections::BTreeMap;
use std::fmt::Write as _;
use std::io::Write as _;
use std::path::PathBuf;
use std::process::{Command, Stdio};
use tamburelvi::{
    Cid, DataPacket, DiscoveryPacket, Merge, Receiver, Settings, Source, Step, Stop, SyncPacket,
};

struct Random(u64);

impl Random {
    fn below(&mut self, n: u64) -> u64 {
        self.0 = self
            .0
            .wrapping_mul(6_364_136_223_846_793_005)
            .wrapping_add(1_442_695_040_888_963_407);
        (self.0 >> 33) % n
    }

    fn chance(&mut self, n: u64) -> bool {
        self.below(n) == 0
    }

    fn pick(&mut self, of: &[u64]) -> u64 {
        of[self.below(of.len() as u64) as usize]
    }
}

fn hex(bytes: &[u8]) -> String {
    if bytes.is_empty() {
        return "-".into();
    }
    bytes.iter().fold(String::new(), |mut s, b| {
        let _ = write!(s, "{b:02x}");
        s
    })
}

fn list(numbers: &[u16]) -> String {
    if numbers.is_empty() {
        return "-".into();
    }
    numbers
        .iter()
        .map(u16::to_string)
        .collect::<Vec<_>>()
        .join(",")
}

/// A script: its command lines, and what this crate answers to each.
struct Run {
    receiver: Receiver,
    script: String,
    answers: String,
}

fn said(stop: Stop) -> String {
    let number = stop.number();
    match stop {
        Stop::TooLong(n) | Stop::TooShort(n) | Stop::SourcesExceeded(n) => format!("{number} {n}"),
        Stop::IllegalUniverse(u) | Stop::UniverseNotRegistered(u) => format!("{number} {u}"),
        Stop::UniverseTimeout(c, u) | Stop::UniverseTerminated(c, u) => {
            format!("{number} {} {u}", hex(&c.0))
        }
        Stop::OutOfSequence {
            arriving,
            last,
            difference,
        }
        | Stop::Repeated {
            arriving,
            last,
            difference,
        } => {
            format!("{number} {arriving} {last} {difference}")
        }
        Stop::SourceDiscovered(name) => format!("{number} {}", hex(name.as_bytes())),
        // The others have no values. One that has, and is forgotten here, shows as a difference.
        _ => number.to_string(),
    }
}

fn done(result: Result<(), Stop>) -> String {
    result.map_or_else(said, |()| "0".into())
}

fn stepped(step: Result<Step, Stop>) -> String {
    match step {
        Ok(Step::Nothing) => "0".into(),
        Ok(Step::Released(records)) => {
            format!(
                "0 release {} {} {}",
                records.len(),
                records.bytes().len(),
                hex(records.bytes())
            )
        }
        Ok(other) => panic!("{other:?}"),
        Err(stop) => said(stop),
    }
}

/// All settings, as docs/REPLAY.md's `settings`.
fn all_set(s: Settings) -> String {
    let bit = u8::from;
    let merge = match s.merge() {
        Merge::DiscardLowestPriorityThenPrevious => "priority",
        Merge::HtpDmxMerge => "highest",
        other => panic!("{other:?}"),
    };
    format!(
        "0 {} {} {} {} {merge} {} {}",
        bit(s.process_preview_data()),
        bit(s.announce_source_discovery()),
        bit(s.announce_stream_termination()),
        bit(s.announce_timeout()),
        s.source_limit().map_or("none".into(), |n| n.to_string()),
        s.discovery_expiry()
    )
}

/// A record of random settings; or one with another layout, another byte or another length.
fn record(r: &mut Random) -> Vec<u8> {
    let mut bytes = vec![0x53, 0x54, 2];
    bytes.extend((0..5).map(|_| r.below(2) as u8));
    let limit = r.pick(&[0, 1, 2, 3, r.0 & 65_535]) as u16;
    bytes.extend(limit.to_be_bytes());
    let expiry = r.pick(&[
        0,
        2_499,
        2_500,
        20_000,
        60_000,
        60_001,
        2_500 + r.0 % 57_501,
    ]) as u32;
    bytes.extend(expiry.to_be_bytes());
    bytes.extend((0..4).map(|_| r.below(256) as u8));
    if r.chance(3) {
        bytes[2] = r.below(4) as u8;
    }
    if r.chance(4) {
        bytes[r.below(14) as usize] = r.pick(&[0, 1, 2, 255]) as u8;
    }
    bytes.truncate(r.pick(&[14, 14, 14, 14, 18, 13, 10, 9, 3, 2, r.0 % 18]) as usize);
    bytes
}

/// The whole state, as docs/REPLAY.md's dump.
fn dump(r: &Receiver) -> String {
    let mut d = String::new();
    let cids = |all: Vec<String>| {
        if all.is_empty() {
            "-".into()
        } else {
            all.join(",")
        }
    };
    for p in r.data_pairs() {
        let _ = writeln!(
            d,
            "d {} {} {} {}",
            hex(&p.cid.0),
            p.universe,
            p.sequence,
            p.reading
        );
    }
    let _ = writeln!(
        d,
        "dc {}",
        cids(r.data_sources().map(|c| hex(&c.0)).collect())
    );
    for p in r.sync_pairs() {
        let _ = writeln!(
            d,
            "y {} {} {} {}",
            hex(&p.cid.0),
            p.universe,
            p.sequence,
            p.reading
        );
    }
    let _ = writeln!(
        d,
        "yc {}",
        cids(r.sync_sources().map(|c| hex(&c.0)).collect())
    );
    for w in r.waiting_data() {
        let _ = writeln!(
            d,
            "w {} {} {} {} {} {} {}",
            w.universe,
            w.address,
            w.priority,
            u8::from(w.preview),
            w.cid.map_or("-".into(), |c| hex(&c.0)),
            w.reading,
            hex(w.values)
        );
    }
    let _ = writeln!(d, "l {}", list(&r.listened_universes().collect::<Vec<_>>()));
    let mut sources = |mark: &str, all: Vec<Source>| {
        for s in all {
            let pages: Vec<_> = s.pages().collect();
            let _ = writeln!(
                d,
                "{mark} {} {} {} {} {}",
                hex(&s.cid.0),
                hex(s.name),
                s.last_page,
                s.reading,
                pages.len()
            );
            for p in pages {
                let _ = writeln!(d, "{mark}p {} {}", p.number, list(p.universes));
            }
        }
    };
    sources("p", r.partial_sources().collect());
    sources("q", r.listed_sources().collect());
    d + "."
}

impl Run {
    fn line(&mut self, command: String, answer: String) {
        self.script += &command;
        self.script += "\n";
        self.answers += &answer;
        self.answers += "\n";
    }

    fn setting(&mut self, r: &mut Random) {
        let on = r.chance(2);
        let bit = u8::from(on);
        match r.below(8) {
            0 => {
                self.receiver.set_process_preview_data(on);
                self.line(format!("preview {bit}"), "0".into());
            }
            1 => {
                self.receiver.set_announce_source_discovery(on);
                self.line(format!("announce_discovery {bit}"), "0".into());
            }
            2 => {
                self.receiver.set_announce_stream_termination(on);
                self.line(format!("announce_termination {bit}"), "0".into());
            }
            3 => {
                self.receiver.set_announce_timeout(on);
                self.line(format!("announce_timeout {bit}"), "0".into());
            }
            4 if on => {
                self.receiver.set_merge(Merge::HtpDmxMerge);
                self.line("merge highest".into(), "0".into());
            }
            4 => {
                self.receiver
                    .set_merge(Merge::DiscardLowestPriorityThenPrevious);
                self.line("merge priority".into(), "0".into());
            }
            5 => {
                let limit = r.below(4) as u16;
                let answer = done(self.receiver.set_source_limit(Some(limit)));
                self.line(format!("limit {limit}"), answer);
            }
            6 => {
                let expiry = r.pick(&[
                    0,
                    2_499,
                    2_500,
                    2_501,
                    20_000,
                    59_999,
                    60_000,
                    60_001,
                    68_036,
                    u32::MAX.into(),
                ]) as u32;
                let answer = done(self.receiver.set_discovery_expiry(expiry));
                self.line(format!("expiry {expiry}"), answer);
            }
            _ => {
                let answer = done(self.receiver.set_source_limit(None));
                self.line("limit none".into(), answer);
            }
        }
    }

    fn records(&mut self, r: &mut Random) {
        match r.below(8) {
            0 | 1 => {
                let n = r.pick(&[0, 13, 14, 15, 64, r.0 % 65]) as usize;
                let mut bytes = vec![0xcc; n];
                let stored = self.receiver.settings().store(&mut bytes);
                let answer = stored.map_or_else(said, |()| format!("0 {}", hex(&bytes)));
                self.line(format!("store_settings {n}"), answer);
            }
            2..=4 => {
                let bytes = record(r);
                let (loaded, reader) = if r.chance(3) {
                    (Settings::from_bytes_layout_1(&bytes), " 1")
                } else {
                    (Settings::from_bytes(&bytes), "")
                };
                let answer = done(loaded.map(|s| self.receiver.set_settings(s)));
                self.line(format!("load_settings {}{reader}", hex(&bytes)), answer);
            }
            5 => {
                let answer = all_set(self.receiver.settings());
                self.line("settings".into(), answer);
            }
            // No settings of this crate hold a value that the setter refuses: such a line could not be carried out here, and ends the test.
            6 => {
                let limit = r.pick(&[1, 2, 3, 1 + r.0 % 65_535]) as u16;
                let command = format!("raw_limit {limit}");
                self.receiver.set_source_limit(Some(limit)).expect(&command);
                self.line(command, "0".into());
            }
            _ => {
                let expiry = r.pick(&[2_500, 20_000, 60_000, 2_500 + r.0 % 57_501]) as u32;
                let command = format!("raw_expiry {expiry}");
                self.receiver.set_discovery_expiry(expiry).expect(&command);
                self.line(command, "0".into());
            }
        }
    }

    fn call(&mut self, r: &mut Random, now: u64, wide: u64) {
        let universe = r.below(wide) as u16 + u16::from(!r.chance(40));
        match r.below(9) {
            0 => {
                let n = r.pick(&[0, 1, 2, 3, 400]);
                let universes: Vec<u16> = (0..n)
                    .map(|_| {
                        if r.chance(300) {
                            64_000
                        } else {
                            1 + r.below(wide * 3) as u16
                        }
                    })
                    .collect();
                let answer = done(self.receiver.listen_universes(&universes));
                self.line(format!("listen {}", list(&universes)), answer);
            }
            1 => {
                let answer = done(self.receiver.mute_universe(universe));
                self.line(format!("mute {universe}"), answer);
            }
            2 | 3 => {
                let answer = u8::from(self.receiver.is_listening(universe));
                self.line(format!("listening {universe}"), format!("0 {answer}"));
            }
            4 => {
                let answer = done(self.receiver.poll(now));
                self.line(format!("poll {now}"), answer);
            }
            5 => {
                self.receiver.remove_expired_sources(now);
                self.line(format!("sweep {now}"), "0".into());
            }
            6 => {
                let answer = u8::from(self.receiver.clear_waiting_data(universe));
                self.line(format!("clear {universe}"), format!("0 {answer}"));
            }
            7 if r.chance(8) => {
                self.receiver.clear_all_waiting_data();
                self.line("clear_all".into(), "0".into());
            }
            8 if r.chance(5) => {
                let command = match r.below(3) {
                    0 => {
                        self.receiver.reset_pairs();
                        "reset_pairs"
                    }
                    1 => {
                        self.receiver.reset_discovery();
                        "reset_discovery"
                    }
                    _ => {
                        self.receiver.reset_sources();
                        "reset"
                    }
                };
                self.line(command.into(), "0".into());
            }
            _ => {}
        }
    }

    fn packet(&mut self, r: &mut Random, now: u64, sources: u64, wide: u64) {
        let cid = Cid([r.below(sources) as u8; 16]);
        let sequence = r.pick(&[r.0 & 255, 0, 1, 2, 3, 20, 128, 250]) as u8;
        let address = if r.chance(3) {
            0
        } else {
            r.pick(&[7, 8, 9, 1, 64_001]) as u16
        };
        match r.below(10) {
            0 | 1 => {
                let packet = SyncPacket {
                    cid,
                    address: 7 + r.below(3) as u16,
                    sequence,
                };
                let answer = stepped(self.receiver.handle_sync_packet(now, &packet));
                self.line(
                    format!("sync {now} {} {} {sequence}", hex(&cid.0), packet.address),
                    answer,
                );
            }
            2 | 3 => {
                let n = r.pick(&[0, 1, 3, 6, 63, 64]);
                let name: Vec<u8> = (0..n).map(|_| b'a' + r.below(26) as u8).collect();
                let n = r.pick(&[0, 1, 5, 20, 512, 513]);
                let universes: Vec<u16> = (0..n).map(|_| 1 + r.below(wide) as u16).collect();
                let packet = DiscoveryPacket {
                    cid,
                    page: r.below(3) as u8,
                    last_page: r.below(3) as u8,
                    name: &name,
                    universes: &universes,
                };
                let answer = done(self.receiver.handle_universe_discovery_packet(now, &packet));
                self.line(
                    format!(
                        "discovery {now} {} {} {} {} {}",
                        hex(&cid.0),
                        packet.page,
                        packet.last_page,
                        hex(&name),
                        list(&universes)
                    ),
                    answer,
                );
            }
            _ => {
                let n = r.pick(&[0, 1, 2, 3, 4, 24, 512, 513, 514]);
                let values: Vec<u8> = (0..n)
                    .map(|i| {
                        if i == 0 {
                            r.below(20) as u8 / 19
                        } else {
                            r.below(256) as u8
                        }
                    })
                    .collect();
                let options = [128, 64, 32]
                    .into_iter()
                    .filter(|_| r.chance(15))
                    .sum::<u64>();
                let packet = DataPacket {
                    cid,
                    universe: 1 + r.below(wide) as u16,
                    address,
                    priority: 100 + r.below(2) as u8,
                    sequence,
                    preview: options & 128 != 0,
                    terminated: options & 64 != 0,
                    force_synchronization: options & 32 != 0,
                    values: &values,
                };
                let answer = stepped(self.receiver.handle_data_packet(now, &packet));
                self.line(
                    format!(
                        "data {now} {} {} {} {} {sequence} {options} {}",
                        hex(&cid.0),
                        packet.universe,
                        packet.address,
                        packet.priority,
                        hex(&values)
                    ),
                    answer,
                );
            }
        }
    }
}

/// Few sources and universes, so that packets meet; or many, so that tables fill up.
fn run(seed: u64) -> Run {
    let mut r = Random(seed);
    let mut run = Run {
        receiver: Receiver::new(),
        script: String::new(),
        answers: String::new(),
    };
    let many = seed % 4 == 3;
    let (sources, wide) = if many { (60, 90) } else { (3, 4) };
    let all: Vec<u16> = (1..=wide as u16).collect();
    let answer = done(run.receiver.listen_universes(&all));
    run.line(format!("listen {}", list(&all)), answer);
    let mut now = r.below(5000);
    for _ in 0..if many { 3000 } else { 400 } {
        now = match r.below(60) {
            0 => now + r.pick(&[2499, 2500, 2501, 2500, 19_999, 20_000, 59_999, 60_000]),
            // readings may fall
            1 => now.saturating_sub(3),
            n => now + n / 50,
        };
        if r.chance(40) {
            let state = dump(&run.receiver);
            run.line("dump".into(), state);
            // From here on a clone goes on.
            run.receiver = run.receiver.clone();
        } else if r.chance(25) {
            run.setting(&mut r);
        } else if r.chance(25) {
            run.records(&mut r);
        } else if r.chance(10) {
            run.call(&mut r, now, wide);
        } else {
            run.packet(&mut r, now, sources, wide);
        }
    }
    run
}

fn replay() -> Command {
    let root = PathBuf::from(env!("CARGO_MANIFEST_DIR")).join("../..");
    let words = std::env::var("TAMBURELVI_REPLAY").unwrap_or("crates/replay/out/replay".into());
    let mut words = words.split(' ');
    let program = root.join(words.next().unwrap_or_default());
    assert!(
        program.is_file(),
        "no replay program at {}: `tools/built program replay` builds it, or name one by TAMBURELVI_REPLAY",
        program.display()
    );
    let mut command = Command::new(program);
    command.args(words);
    command
}

fn answers(mut program: Command, script: &str) -> String {
    let mut child = program
        .stdin(Stdio::piped())
        .stdout(Stdio::piped())
        .stderr(Stdio::piped())
        .spawn()
        .expect("the replay program starts");
    let mut input = child.stdin.take().unwrap();
    let text = script.to_string();
    let writer = std::thread::spawn(move || input.write_all(text.as_bytes()));
    let output = child.wait_with_output().expect("the replay program ends");
    writer
        .join()
        .unwrap()
        .expect("the replay program reads all");
    // It says on standard error what it could not read or write.
    assert_eq!(String::from_utf8_lossy(&output.stderr), "");
    assert!(output.status.success(), "{}", output.status);
    String::from_utf8(output.stdout).expect("ASCII")
}

#[test]
fn the_same_answers_as_the_replay_program() {
    let (mut lines, mut dumps) = (0, 0);
    let mut numbers = BTreeMap::new();
    for seed in 0..40 {
        let run = run(seed);
        let theirs = answers(replay(), &run.script);
        let mut commands = run.script.lines();
        let mut command = commands.next();
        let mut theirs = theirs.lines();
        for ours in run.answers.lines() {
            assert_eq!(Some(ours), theirs.next(), "script {seed}, {command:?}");
            lines += 1;
            // A dump has many lines, the last of which is a point.
            if command != Some("dump") {
                let number = ours.split(' ').next().unwrap();
                *numbers.entry(number.parse::<u8>().unwrap()).or_insert(0) += 1;
                command = commands.next();
            } else if ours == "." {
                dumps += 1;
                command = commands.next();
            }
        }
        assert_eq!(theirs.next(), None, "script {seed} has no further answers");
    }
    println!("{lines} lines and {dumps} dumps, the same; answers by number: {numbers:?}");
}
