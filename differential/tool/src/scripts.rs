//! Random replay scripts. A kind says which commands come how often and how their fields are chosen; the generator
//! keeps rough records of what it has sent, so that sequence numbers and readings fall on the boundaries.

use crate::records::{Record, Settings};
use crate::rng::Rng;
use std::collections::HashMap;
use std::fmt::Write;

type Cid = [u8; 16];

/// How a kind chooses. Weights are relative; the others are in percent.
#[derive(Clone, Copy)]
struct Choice {
    // Weights of the commands.
    data: usize,
    sync: usize,
    discovery: usize,
    poll: usize,
    sweep: usize,
    clear: usize,
    clear_all: usize,
    reset: usize,
    reset_pairs: usize,
    reset_discovery: usize,
    listen: usize,
    mute: usize,
    listening: usize,
    setting: usize,
    limit: usize,
    expiry: usize,
    malformed: usize,
    dump: usize,
    // Lines of stored settings behind a command, in percent; the weight of those among them that are no commands.
    records: usize,
    no_record: usize,
    // Data packets.
    synchronised: usize,
    terminated: usize,
    preview: usize,
    empty: usize,
    unlike: usize,
    odd_universe: usize,
    odd_address: usize,
    priority: usize,
    // Sequence numbers on a boundary instead of the next one.
    boundary: usize,
    // The clock: stands still, aims at a stored reading plus 2,499 to 2,501, falls, leaps.
    still: usize,
    aim: usize,
    fall: usize,
    leap: usize,
    // Settings at the start.
    announce_timeout: usize,
    announce_termination: usize,
    announce_discovery: usize,
    want_preview: usize,
    highest: usize,
    limited: usize,
    other_expiry: usize,
    // How many sources and universes, at most.
    sources: usize,
    universes: usize,
}

const MIXED: Choice = Choice {
    data: 46,
    sync: 14,
    discovery: 12,
    poll: 4,
    sweep: 2,
    clear: 2,
    clear_all: 1,
    reset: 1,
    reset_pairs: 1,
    reset_discovery: 1,
    listen: 2,
    mute: 2,
    listening: 1,
    setting: 3,
    limit: 1,
    expiry: 1,
    malformed: 0,
    dump: 12,
    records: 2,
    no_record: 0,
    synchronised: 50,
    terminated: 7,
    preview: 12,
    empty: 4,
    unlike: 7,
    odd_universe: 4,
    odd_address: 3,
    priority: 30,
    boundary: 20,
    still: 35,
    aim: 9,
    fall: 4,
    leap: 1,
    announce_timeout: 35,
    announce_termination: 50,
    announce_discovery: 50,
    want_preview: 60,
    highest: 50,
    limited: 15,
    other_expiry: 15,
    sources: 4,
    universes: 4,
};

/// The kinds of scripts, each with what it stresses.
pub const KINDS: &[(&str, &str)] = &[
    (
        "mixed",
        "every command and setting, few sources and universes that collide",
    ),
    (
        "sequence",
        "differences -128, -21 to -18, -1 to 2, 126, 127 in both tables; refused packets and what they leave",
    ),
    (
        "timeouts",
        "timeout announcements on and off, many pairs of which some expire at exactly 2,500, polls",
    ),
    (
        "limit",
        "a source limit that changes, more sources than it allows, room that ageing frees",
    ),
    (
        "termination",
        "terminations of known and unknown pairs, of listed universes, with preview; announced or not",
    ),
    (
        "waiting",
        "synchronised data for several addresses, releases, clears, unsynchronised data in between",
    ),
    (
        "merge",
        "few universes under one address, both merge choices, priorities, previews, empty and unlike values, falling clocks",
    ),
    (
        "discovery",
        "pages with gaps, repeats and pages past the last one, last pages and names that change, sweeps, resets",
    ),
    (
        "listening",
        "listen and mute, illegal universes first, last and alone, data and syncs for what is not listened to",
    ),
    (
        "settings",
        "setters between all other commands, limit 0 and refused expiries among them; settings stored and loaded, records damaged",
    ),
    (
        "clock",
        "readings that fall, leap, begin at 0 and end at the largest 64-bit number",
    ),
    (
        "lines",
        "lines that are no commands, comments, empty lines, fields out of range",
    ),
    (
        "full",
        "up to and past 1,024 pairs, 1,024 listened universes, 64 waiting universes, 64 pages, 513 values, 63 bytes of name, 512 universes a page",
    ),
];

fn choice(kind: &str) -> Choice {
    let base = MIXED;
    match kind {
        "mixed" => base,
        "sequence" => Choice {
            sync: 25,
            discovery: 0,
            sweep: 0,
            listen: 0,
            mute: 0,
            boundary: 75,
            synchronised: 25,
            terminated: 3,
            still: 70,
            aim: 3,
            sources: 2,
            universes: 2,
            announce_timeout: 10,
            ..base
        },
        "timeouts" => Choice {
            data: 45,
            sync: 30,
            discovery: 1,
            poll: 14,
            sweep: 1,
            listen: 0,
            mute: 0,
            expiry: 2,
            boundary: 4,
            terminated: 2,
            still: 30,
            aim: 16,
            fall: 5,
            announce_timeout: 70,
            limited: 5,
            other_expiry: 40,
            sources: 5,
            universes: 4,
            ..base
        },
        "limit" => Choice {
            discovery: 0,
            sync: 25,
            limit: 9,
            boundary: 4,
            terminated: 8,
            aim: 12,
            limited: 90,
            sources: 6,
            universes: 2,
            ..base
        },
        "termination" => Choice {
            data: 45,
            sync: 22,
            discovery: 22,
            terminated: 35,
            preview: 20,
            boundary: 8,
            aim: 3,
            odd_universe: 8,
            want_preview: 35,
            limited: 5,
            sources: 3,
            universes: 4,
            ..base
        },
        "waiting" => Choice {
            data: 55,
            sync: 22,
            discovery: 0,
            clear: 4,
            clear_all: 3,
            synchronised: 85,
            boundary: 4,
            terminated: 3,
            still: 45,
            aim: 10,
            sources: 3,
            universes: 5,
            limited: 2,
            ..base
        },
        "merge" => Choice {
            data: 70,
            sync: 8,
            discovery: 0,
            poll: 2,
            sweep: 0,
            synchronised: 96,
            boundary: 2,
            terminated: 1,
            preview: 20,
            want_preview: 90,
            empty: 5,
            unlike: 6,
            highest: 80,
            still: 55,
            fall: 12,
            aim: 3,
            priority: 35,
            sources: 3,
            universes: 2,
            limited: 0,
            ..base
        },
        "discovery" => Choice {
            data: 8,
            sync: 1,
            discovery: 70,
            sweep: 6,
            expiry: 3,
            terminated: 50,
            aim: 8,
            sources: 5,
            universes: 5,
            ..base
        },
        "listening" => Choice {
            listen: 14,
            mute: 14,
            listening: 8,
            odd_universe: 20,
            odd_address: 20,
            boundary: 5,
            aim: 2,
            universes: 5,
            ..base
        },
        "settings" => Choice {
            setting: 25,
            limit: 8,
            expiry: 6,
            records: 25,
            aim: 10,
            ..base
        },
        "clock" => Choice {
            poll: 10,
            sweep: 6,
            aim: 16,
            fall: 16,
            leap: 6,
            boundary: 5,
            ..base
        },
        "lines" => Choice {
            malformed: 25,
            records: 14,
            no_record: 14,
            ..base
        },
        _ => panic!("no kind {kind}"),
    }
}

const ODD_UNIVERSES: [u16; 10] = [
    0, 64000, 64001, 64100, 64213, 64215, 65535, 63999, 64214, 12345,
];
const UNIVERSES: [u16; 12] = [1, 2, 3, 4, 7, 255, 256, 257, 512, 32768, 63998, 63999];

// The discovery expiry that the crate sweeps by, others that are taken, and refused ones.
const CRATE_EXPIRY: u32 = 2500;
const OTHER_EXPIRIES: [u32; 4] = [2501, 20_000, 59_999, 60_000];
const REFUSED_EXPIRIES: [u32; 4] = [0, 2499, 60_001, u32::MAX];

/// What is wrong with a record.
#[derive(Clone, Copy, PartialEq)]
enum Fault {
    Cut,
    Mark,
    Layout,
    Field,
    Expiry,
}

struct Script {
    rng: Rng,
    // For the lines of stored settings: the other lines of a script are what they would be without these.
    own: Rng,
    choice: Choice,
    lines: Vec<String>,
    // How many of them are of stored settings.
    beside: usize,
    now: u64,
    readings: Vec<u64>,
    cids: Vec<Cid>,
    universes: Vec<u16>,
    addresses: Vec<u16>,
    last: HashMap<(bool, Cid, u16), u8>,
    names: Vec<Vec<u8>>,
    plans: HashMap<Cid, (u8, Vec<u8>)>,
    // Whether discovery pages come without gaps, repeats and other strays.
    tidy: bool,
    // The settings as the script has set them.
    settings: Settings,
    // The record that was stored last.
    stored: Option<Record>,
    // Whether values that the setters refuse are put in past them.
    raw: bool,
}

/// The script of a kind, seed and number. A short one has some 12 to 30 commands instead of 60 to 150.
pub fn script(kind: &str, seed: u64, number: u64, short: bool) -> Vec<String> {
    let mut mixed = Rng::new(seed ^ 0x5ac0_11f0);
    for b in kind.bytes() {
        mixed = Rng::new(mixed.next() ^ u64::from(b));
    }
    let mut seeds = Rng::new(mixed.next() ^ number);
    let mut rng = Rng::new(seeds.next());
    let own = Rng::new(seeds.next());
    let full = kind == "full";
    let mut choice = choice(if full { "mixed" } else { kind });
    // Some scripts have none of what hinders a merge, some have much of it.
    choice.empty *= rng.pick(&[0, 1, 1, 5]);
    choice.unlike *= rng.pick(&[0, 1, 1, 5]);
    choice.priority = rng.pick(&[0, choice.priority, choice.priority, 60]);
    let mut script = Script::new(rng, own, choice, kind == "clock");
    script.show(15);
    script.set_expiry(CRATE_EXPIRY);
    if full {
        script.full(short);
    } else {
        script.random(short);
    }
    script.lines
}

pub fn hex(bytes: &[u8]) -> String {
    bytes.iter().fold(String::new(), |mut s, b| {
        write!(s, "{b:02x}").expect("a string");
        s
    })
}

fn byte_string(bytes: &[u8]) -> String {
    if bytes.is_empty() {
        "-".into()
    } else {
        hex(bytes)
    }
}

fn list(numbers: &[u16]) -> String {
    if numbers.is_empty() {
        return "-".into();
    }
    numbers
        .iter()
        .map(u16::to_string)
        .collect::<Vec<_>>()
        .join(",")
}

impl Script {
    fn new(mut rng: Rng, mut own: Rng, choice: Choice, extreme: bool) -> Script {
        let now = match rng.below(if extreme { 4 } else { 12 }) {
            0 => 0,
            1 => u64::MAX - rng.below(9000) as u64,
            2 => rng.next() >> rng.below(60),
            _ => 1000 + rng.below(100_000) as u64,
        };
        let sources = rng.between(choice.sources.div_ceil(2).max(2), choice.sources);
        let cids = sources_of(&mut rng, sources);
        let mut pool = UNIVERSES;
        rng.shuffle(&mut pool);
        let count = rng.between(1, choice.universes);
        let mut universes = pool[..count].to_vec();
        if rng.percent(5) {
            universes.push(64214);
        }
        // Addresses are universes too: some of those sent on, some of their own.
        let mut addresses: Vec<u16> = pool[count..count + rng.between(1, 3)].to_vec();
        if rng.percent(50) {
            addresses.push(universes[0]);
        }
        let names = vec![
            b"Desk A".to_vec(),
            b"Desk B".to_vec(),
            Vec::new(),
            "Pult süd".as_bytes().to_vec(),
            vec![b'n'; rng.between(62, 63)],
        ];
        let tidy = rng.percent(40);
        let raw = own.percent(60);
        Script {
            rng,
            own,
            choice,
            lines: Vec::new(),
            beside: 0,
            now,
            readings: vec![now],
            cids,
            universes,
            addresses,
            last: HashMap::new(),
            names,
            plans: HashMap::new(),
            tidy,
            settings: Settings::FRESH,
            stored: None,
            raw,
        }
    }

    fn say(&mut self, line: String) {
        self.settings.note(&line);
        self.lines.push(line);
    }

    fn random(&mut self, short: bool) {
        self.settings_at_the_start();
        let length = if short {
            self.rng.between(12, 30)
        } else {
            self.rng.between(60, 150)
        };
        while self.lines.len() < length + self.beside {
            self.command();
            self.records();
        }
        self.show(50);
        self.say("dump".into());
    }

    fn settings_at_the_start(&mut self) {
        let c = self.choice;
        let on = [
            ("announce_timeout", c.announce_timeout),
            ("announce_termination", c.announce_termination),
            ("announce_discovery", c.announce_discovery),
            ("preview", c.want_preview),
        ];
        for (setter, percent) in on {
            if self.rng.percent(percent) {
                self.say(format!("{setter} 1"));
            }
        }
        if self.rng.percent(c.highest) {
            self.say("merge highest".into());
        }
        if self.rng.percent(c.limited) {
            let limit = self.rng.between(1, c.sources.saturating_sub(1).max(1));
            self.say(format!("limit {limit}"));
        }
        if self.rng.percent(c.other_expiry) {
            let expiry = self.rng.pick(&OTHER_EXPIRIES);
            self.set_expiry(expiry);
        }
        let mut wanted = self.universes.clone();
        if self.rng.percent(20) {
            wanted.truncate(self.rng.between(1, wanted.len()));
        }
        if self.rng.percent(60) {
            wanted.extend(self.addresses.clone());
        }
        self.rng.shuffle(&mut wanted);
        self.say(format!("listen {}", list(&wanted)));
    }

    fn command(&mut self) {
        let c = self.choice;
        let weights = [
            c.data,
            c.sync,
            c.discovery,
            c.poll,
            c.sweep,
            c.clear,
            c.clear_all,
            c.reset,
            c.reset_pairs,
            c.reset_discovery,
            c.listen,
            c.mute,
            c.listening,
            c.setting,
            c.limit,
            c.expiry,
            c.malformed,
            c.dump,
        ];
        match self.rng.weighted(&weights) {
            0 => self.data(),
            1 => self.sync(),
            2 => self.discovery(),
            3 => {
                let now = self.tick();
                self.say(format!("poll {now}"));
            }
            4 => {
                // The clock may fall back behind an aimed sweep, so that little else expires with it.
                let now = if self.rng.percent(50) {
                    self.aimed()
                } else {
                    self.tick()
                };
                self.sweep(now);
            }
            5 => {
                let universe = self.universe();
                self.say(format!("clear {universe}"));
            }
            6 => {
                self.say("clear_all".into());
                self.say("dump".into());
            }
            i @ 7..=9 => {
                self.reset(["reset", "reset_pairs", "reset_discovery"][i - 7]);
                self.say("dump".into());
            }
            10 => self.listen(),
            11 => {
                let universe = self.any_universe();
                self.say(format!("mute {universe}"));
            }
            12 => {
                let universe = self.any_universe();
                self.say(format!("listening {universe}"));
            }
            13 => self.setting(),
            14 => self.limit(),
            15 => self.expiry(),
            16 => self.malformed(),
            _ => self.say("dump".into()),
        }
    }

    // The reset of all, or one half of it.
    fn reset(&mut self, word: &str) {
        if word != "reset_discovery" {
            self.last.clear();
        }
        self.say(word.into());
    }

    // A discovery sweep; if the discovery expiry is not the crate's, it is set to that first.
    fn sweep(&mut self, now: u64) {
        if self.settings.expiry != CRATE_EXPIRY {
            self.set_expiry(CRATE_EXPIRY);
        }
        self.say(format!("sweep {now}"));
    }

    // The clock's next reading.
    fn tick(&mut self) -> u64 {
        let c = self.choice;
        let rest = 100 - (c.still + c.aim + c.fall + c.leap).min(99);
        match self.rng.weighted(&[c.still, c.aim, c.fall, c.leap, rest]) {
            0 => {}
            1 => self.now = self.aimed(),
            2 => {
                let back = self.rng.pick(&[1, 10, 100, 2499, 2500, 2501, 10_000]);
                self.now = self.now.saturating_sub(back);
            }
            3 => {
                self.now = match self.rng.below(4) {
                    0 => 0,
                    1 => u64::MAX,
                    2 => self.rng.next(),
                    _ => self.now.saturating_add(1_000_000),
                };
            }
            _ => {
                let ahead = self.rng.pick(&[1, 1, 2, 20, 40, 300, 600, 1250]);
                self.now = self.now.saturating_add(ahead);
            }
        }
        if self.readings.last() != Some(&self.now) {
            self.readings.push(self.now);
            if 6 < self.readings.len() {
                self.readings.remove(0);
            }
        }
        self.now
    }

    // A reading at which something stored is 2,499 to 2,501 old.
    fn aimed(&mut self) -> u64 {
        let stored = self.rng.pick(&self.readings);
        let ahead = self.rng.pick(&[2499, 2500, 2500, 2501]);
        stored.saturating_add(ahead)
    }

    fn universe(&mut self) -> u16 {
        self.rng.pick(&self.universes)
    }

    fn any_universe(&mut self) -> u16 {
        match self.rng.below(10) {
            0..5 => self.universe(),
            5..8 => self.rng.pick(&self.addresses),
            8 => self.rng.pick(&ODD_UNIVERSES),
            _ => 64214,
        }
    }

    fn sequence(&mut self, sync: bool, cid: Cid, universe: u16) -> u8 {
        let key = (sync, cid, universe);
        let Some(last) = self.last.get(&key).copied() else {
            let first = self.rng.pick(&[0, 1, 10, 127, 128, 236, 250, 255]);
            self.last.insert(key, first);
            return first;
        };
        let difference: i16 = if self.rng.percent(self.choice.boundary) {
            self.rng.pick(&[
                -128, -127, -21, -20, -20, -19, -19, -18, -1, 0, 0, 1, 2, 126, 127,
            ])
        } else {
            1
        };
        let arriving = (i16::from(last) + difference).rem_euclid(256) as u8;
        if !(-19..=0).contains(&difference) {
            self.last.insert(key, arriving);
        }
        arriving
    }

    fn values(&mut self) -> Vec<u8> {
        if self.rng.percent(self.choice.empty) {
            return Vec::new();
        }
        let length = match self.rng.below(400) {
            0 => 513,
            1 => 512,
            _ => self.rng.between(1, 5),
        };
        let mut values: Vec<u8> = (0..length)
            .map(|_| self.rng.pick(&[0, 1, 10, 50, 127, 128, 200, 255]))
            .collect();
        values[0] = if self.rng.percent(self.choice.unlike) {
            self.rng.pick(&[1, 0xdd, 255])
        } else {
            0
        };
        values
    }

    fn data(&mut self) {
        let c = self.choice;
        let now = self.tick();
        let cid = self.rng.pick(&self.cids);
        let universe = if self.rng.percent(c.odd_universe) {
            self.rng.pick(&ODD_UNIVERSES)
        } else {
            self.universe()
        };
        let address = if !self.rng.percent(c.synchronised) {
            0
        } else if self.rng.percent(c.odd_address) {
            self.rng.pick(&ODD_UNIVERSES)
        } else if self.rng.percent(60) {
            self.addresses[0]
        } else {
            self.rng.pick(&self.addresses)
        };
        let priority = if self.rng.percent(c.priority) {
            self.rng.pick(&[0, 99, 101, 200, 201, 255])
        } else {
            100
        };
        let sequence = self.sequence(false, cid, universe);
        let mut options = 0;
        if self.rng.percent(c.preview) {
            options += 128;
        }
        if self.rng.percent(c.terminated) {
            options += 64;
            if self.rng.percent(80) {
                self.last.remove(&(false, cid, universe));
            }
        }
        if self.rng.percent(15) {
            options += 32;
        }
        let values = byte_string(&self.values());
        let cid = hex(&cid);
        self.say(format!(
            "data {now} {cid} {universe} {address} {priority} {sequence} {options} {values}"
        ));
    }

    fn sync(&mut self) {
        let now = self.tick();
        let cid = self.rng.pick(&self.cids);
        let address = match self.rng.below(20) {
            0 => self.rng.pick(&ODD_UNIVERSES),
            1..5 => self.universe(),
            5..14 => self.addresses[0],
            _ => self.rng.pick(&self.addresses),
        };
        let sequence = self.sequence(true, cid, address);
        let cid = hex(&cid);
        self.say(format!("sync {now} {cid} {address} {sequence}"));
    }

    // A source follows a plan (its pages in some order) most of the time, and strays from it now and then.
    fn discovery(&mut self) {
        let now = self.tick();
        let cid = self.rng.pick(&self.cids);
        let strays = if self.tidy { 0 } else { 10 };
        if !self.plans.contains_key(&cid) || self.rng.percent(strays / 2) {
            let last = self.rng.pick(&[0, 0, 1, 1, 1, 2, 2, 3]);
            let mut pages: Vec<u8> = (0..=last).collect();
            if self.rng.percent(60) {
                self.rng.shuffle(&mut pages);
            }
            // A gap, or a repeat of a page.
            if self.rng.percent(strays) {
                pages.pop();
            }
            if self.rng.percent(strays) {
                let again = self.rng.between(0, usize::from(last)) as u8;
                pages.push(again);
            }
            self.plans.insert(cid, (last, pages));
        }
        let (planned, pages) = self.plans.get_mut(&cid).expect("a plan");
        let mut last = *planned;
        let mut page = pages.pop().unwrap_or(0);
        if pages.is_empty() {
            self.plans.remove(&cid);
        }
        if self.rng.percent(strays) {
            last = self.rng.pick(&[0, 1, 2, 3, 255]);
        }
        if self.rng.percent(strays) {
            page = self.rng.pick(&[0, 0, 1, 1, 2, 3, 4, 5, 255]);
        }
        let name = if self.rng.percent(60) {
            self.names[0].clone()
        } else {
            let i = self.rng.below(self.names.len());
            self.names[i].clone()
        };
        let length = if self.rng.below(300) == 0 {
            self.rng.between(511, 512)
        } else {
            self.rng.between(0, 5)
        };
        let universes: Vec<u16> = (0..length)
            .map(|_| {
                if self.rng.percent(75) {
                    self.universe()
                } else {
                    self.rng.pick(&UNIVERSES)
                }
            })
            .collect();
        self.say(format!(
            "discovery {now} {} {page} {last} {} {}",
            hex(&cid),
            byte_string(&name),
            list(&universes)
        ));
    }

    fn listen(&mut self) {
        let length = self.rng.between(0, 4);
        let odd = self.rng.pick(&[0, 1, 6]);
        let mut wanted: Vec<u16> = (0..length)
            .map(|_| match self.rng.below(12) {
                _ if self.rng.below(12) < odd => self.rng.pick(&ODD_UNIVERSES),
                0..3 => self.rng.pick(&UNIVERSES),
                3..6 => self.rng.pick(&self.addresses),
                _ => self.universe(),
            })
            .collect();
        if self.rng.percent(20) {
            let all = self.universes.clone();
            wanted.extend(all);
        }
        self.say(format!("listen {}", list(&wanted)));
    }

    fn setting(&mut self) {
        let on = self.rng.below(2);
        match self.rng.below(6) {
            0 => self.say(format!("preview {on}")),
            1 => self.say(format!("announce_discovery {on}")),
            2 => self.say(format!("announce_termination {on}")),
            3 => self.say(format!("announce_timeout {on}")),
            4 => self.say(format!("merge {}", ["priority", "highest"][on])),
            _ => self.limit(),
        }
    }

    fn limit(&mut self) {
        match self.rng.below(10) {
            0 => self.say("limit 0".into()),
            1 | 2 => self.say("limit none".into()),
            3 => self.say("limit 65535".into()),
            _ => {
                let limit = self.rng.between(1, self.cids.len());
                self.say(format!("limit {limit}"));
            }
        }
    }

    // The discovery expiry: the crate's again, another, which stays up to the next discovery sweep, or a refused one.
    fn expiry(&mut self) {
        let expiry = match self.rng.below(6) {
            0 => CRATE_EXPIRY,
            1 | 2 => self.rng.pick(&OTHER_EXPIRIES),
            _ => self.rng.pick(&REFUSED_EXPIRIES),
        };
        self.set_expiry(expiry);
    }

    fn set_expiry(&mut self, expiry: u32) {
        self.say(format!("expiry {expiry}"));
    }

    // Lines of stored settings, in so many cases of a hundred.
    fn records(&mut self) {
        let percent = self.choice.records;
        self.beside(percent, Script::record);
    }

    fn show(&mut self, percent: usize) {
        self.beside(percent, |script| script.say("settings".into()));
    }

    fn beside(&mut self, percent: usize, lines: fn(&mut Script)) {
        let before = self.lines.len();
        std::mem::swap(&mut self.rng, &mut self.own);
        if self.rng.percent(percent) {
            lines(self);
        }
        std::mem::swap(&mut self.rng, &mut self.own);
        self.beside += self.lines.len() - before;
    }

    fn record(&mut self) {
        let weights = [3, 4, 5, 8, 1, 4, self.choice.no_record];
        match self.rng.weighted(&weights) {
            0 => self.store(),
            1 => self.there_and_back(),
            2 => {
                let record = self.any_record(&[1, 1, 2]);
                let only_1 = self.rng.percent(if record.layout == 1 { 40 } else { 20 });
                self.load(&record, only_1);
            }
            3 => {
                for _ in 0..self.rng.between(2, 6) {
                    self.load_damaged();
                }
            }
            4 => self.load_every_length(),
            5 => self.raw(),
            _ => {
                for _ in 0..self.rng.between(1, 3) {
                    self.no_record();
                }
            }
        }
    }

    fn store(&mut self) {
        let length = match self.rng.below(10) {
            0..3 => self.rng.pick(&[0, 1, 2, 3, 9, 10, 12, 13, 13, 13]),
            3..6 => 14,
            6 => self.rng.pick(&[15, 64]),
            _ => self.rng.between(14, 64),
        };
        self.say(format!("store_settings {length}"));
        if 14 <= length && self.settings.can_be_stored() {
            self.stored = Some(Record {
                layout: 2,
                settings: self.settings,
                rest: vec![0xcc; length - 14],
            });
        }
    }

    // Stored settings, now or earlier, are loaded again behind setters.
    fn there_and_back(&mut self) {
        if self.stored.is_none() || self.rng.percent(70) {
            self.store();
        }
        for _ in 0..self.rng.between(0, 4) {
            if self.rng.percent(20) {
                self.expiry();
            } else {
                self.setting();
            }
        }
        let Some(record) = self.stored.clone() else {
            return;
        };
        if self.rng.percent(20) {
            self.load(&record, true);
        }
        self.load(&record, false);
    }

    // A record with the fields that are set, some of them changed: few in most kinds, so that a script stays what its kind is.
    fn any_record(&mut self, layouts: &[u8]) -> Record {
        let mut settings = self.settings;
        if !settings.can_be_stored() {
            settings = Settings::FRESH;
        }
        let all = self.rng.percent(2 * self.choice.records);
        let changed = if all { 7 } else { self.rng.between(1, 2) };
        for i in 0..changed {
            let field = if all { i } else { self.rng.below(7) };
            match field {
                0..5 => settings.on[field] = self.rng.percent(50),
                5 => {
                    let few = self.rng.between(1, self.cids.len()) as u16;
                    let limits = [255, 256, 513, 65535, few, few].map(Some);
                    settings.limit = self.rng.pick(&[&[None; 3], &limits[..]].concat());
                }
                _ => {
                    let any = self.rng.between(2500, 60_000) as u32;
                    settings.expiry = self.rng.pick(&[2500, 2501, 59_999, 60_000, any]);
                }
            }
        }
        let rest = match self.rng.below(120) {
            0..60 => Vec::new(),
            // Behind layout 1, what would be an expiry.
            60..80 => {
                let expiry: u32 = self.rng.pick(&[2500, 2499, 60_000]);
                expiry.to_be_bytes().to_vec()
            }
            80..119 => {
                let length = self.rng.pick(&[1, 1, 2, 4, 50]);
                let byte = self.rng.pick(&[0, 1, 2, 0x53, 0xcc, 255]);
                vec![byte; length]
            }
            // As long as a line can be.
            _ => vec![0; 4074],
        };
        let layout = self.rng.pick(layouts);
        Record {
            layout,
            settings,
            rest,
        }
    }

    fn load(&mut self, record: &Record, only_1: bool) {
        self.say_load(&record.bytes(), only_1);
        if record.layout == 1 || !only_1 {
            self.settings = record.read();
        }
        if self.rng.percent(70) {
            self.say("settings".into());
        }
    }

    fn say_load(&mut self, bytes: &[u8], only_1: bool) {
        let reader = if only_1 { " 1" } else { "" };
        self.say(format!("load_settings {}{reader}", byte_string(bytes)));
    }

    // A record with one fault, or with two so that the order of the tests shows. Neither reader takes it.
    fn load_damaged(&mut self) {
        use Fault::*;
        let first = self
            .rng
            .pick(&[Cut, Cut, Mark, Layout, Field, Field, Expiry]);
        let second = self
            .rng
            .pick(&[first, first, first, Cut, Mark, Layout, Field, Expiry]);
        let has = |fault| first == fault || second == fault;
        let record = self.any_record(if has(Expiry) { &[2] } else { &[1, 2] });
        let mut bytes = record.bytes();
        if has(Mark) {
            let i = self.rng.below(2);
            bytes[i] ^= self.rng.pick(&[1, 7, 0x20, 0xff]);
        }
        if has(Layout) {
            bytes[2] = self.rng.pick(&[0, 3, 3, 4, 128, 255]);
        }
        if has(Field) {
            let i = self.rng.between(3, 7);
            bytes[i] = self.rng.pick(&[2, 2, 3, 128, 255]);
        }
        if has(Expiry) {
            // 68,036 is 2,500 in its last two bytes.
            let expiries = [0, 2499, 2499, 60_001, 60_001, 68_036, 68_036, u32::MAX];
            let expiry: u32 = self.rng.pick(&expiries);
            bytes[10..14].copy_from_slice(&expiry.to_be_bytes());
        }
        if has(Cut) {
            let needed = record.needed();
            bytes.truncate(match self.rng.below(4) {
                0 => self.rng.below(4),
                1 => self.rng.below(needed),
                _ => needed - 1,
            });
        }
        let only_1 = self.rng.percent(20);
        self.say_load(&bytes, only_1);
        if self.rng.percent(20) {
            self.say("settings".into());
        }
    }

    // Every length of a record, from nothing to beyond its end.
    fn load_every_length(&mut self) {
        let mut record = self.any_record(&[1, 2]);
        let bytes = record.bytes();
        let only_1 = self.rng.percent(30);
        for length in 0..record.needed() {
            self.say_load(&bytes[..length], only_1);
        }
        for length in 0..3 {
            record.rest = vec![255; length];
            self.load(&record, only_1);
        }
    }

    // Values that are put in past the setters. Behind a limit of 0 come only lines of stored settings, up to one that sets
    // the limit: a binding in C cannot hold a limit of 0.
    fn raw(&mut self) {
        if self.raw && self.rng.percent(75) {
            let expiry = self.rng.pick(&[0, 2499, 2499, 60_001, 60_001, u32::MAX]);
            self.say(format!("raw_expiry {expiry}"));
        } else if self.rng.percent(60) {
            let expiry = self.rng.pick(&OTHER_EXPIRIES);
            self.say(format!("raw_expiry {expiry}"));
        }
        let few = self.rng.between(1, self.cids.len()) as u16;
        let zero = self.raw && self.rng.percent(40);
        if zero {
            self.say("raw_limit 0".into());
        } else if self.rng.percent(40) {
            let limit = self.rng.pick(&[few, 256, 65535]);
            self.say(format!("raw_limit {limit}"));
        }
        for _ in 0..self.rng.between(2, 4) {
            match self.rng.below(6) {
                0 => self.say("settings".into()),
                1 => self.load_damaged(),
                _ => self.store(),
            }
        }
        if zero {
            match self.rng.below(4) {
                0 => self.say("limit none".into()),
                1 => self.say(format!("limit {few}")),
                2 => self.say(format!("raw_limit {few}")),
                _ => {
                    let record = self.any_record(&[1, 2]);
                    self.load(&record, false);
                }
            }
        }
    }

    // Lines that are no commands of stored settings.
    fn no_record(&mut self) {
        let record = hex(&self.any_record(&[1, 2]).bytes());
        let line = match self.rng.below(30) {
            0 => "store_settings".into(),
            1..4 => "store_settings 65".into(),
            4 => "store_settings -1".into(),
            5 => "store_settings 14 14".into(),
            6 => "store_settings 14 ".into(),
            7 => "store_settings 18446744073709551630".into(),
            8 => "load_settings".into(),
            9 => "load_settings ".into(),
            10 => "load_settings 5".into(),
            11 => "load_settings 5g".into(),
            12 => format!("load_settings {record}0"),
            13 => format!("load_settings {record}CC"),
            14 => format!("load_settings {record} 0"),
            15 => format!("load_settings {record} 2"),
            16 => format!("load_settings {record} -"),
            17 => format!("load_settings {record} 1 1"),
            18 => format!("load_settings {record} "),
            19 => format!("load_settings  {record}"),
            20 => format!("load_setting {record}"),
            21 => "settings 1".into(),
            22 => "settings ".into(),
            23 => "raw_limit".into(),
            24 => "raw_limit none".into(),
            25 => "raw_limit 65536".into(),
            26 => "raw_limit 1 1".into(),
            27 => "raw_expiry".into(),
            28 => "raw_expiry 4294967296".into(),
            _ => "raw_expiry 2500 1".into(),
        };
        self.say(line);
    }

    // Lines that are plainly no commands, and lines that print nothing.
    fn malformed(&mut self) {
        let now = self.now;
        let cid = hex(&self.cids[0]);
        let universe = self.universe();
        let line = match self.rng.below(42) {
            0 => "".into(),
            1 => "# a remark".into(),
            2 => "#".into(),
            3 => "nonsense".into(),
            4 => "data".into(),
            5 => "preview".into(),
            6 => "preview 2".into(),
            7 => "announce_timeout on".into(),
            8 => "merge lowest".into(),
            9 => "limit 65536".into(),
            10 => "limit -1".into(),
            11 => "listen 1,,2".into(),
            12 => "listen 65536".into(),
            13 => "listen".into(),
            14 => format!("mute {universe} {universe}"),
            15 => format!("poll {now} 1"),
            16 => "poll 18446744073709551616".into(),
            17 => "poll x".into(),
            18 => format!("sync {now} {} 1 0", &cid[1..]),
            19 => format!("sync {now} {cid}00 1 0"),
            20 => format!("sync {now} {cid} 1 256"),
            21 => format!("sync {now}  {cid} 1 1"),
            22 => format!("data {now} {cid} {universe} 0 100 1 0 0"),
            23 => format!("data {now} {cid} {universe} 0 100 1 0 0g"),
            24 => format!("data {now} {cid} {universe} 0 256 1 0 00"),
            25 => format!("data {now} {cid} {universe} 0 100 1 256 00"),
            26 => format!("data {now} {cid} 65536 0 100 1 0 00"),
            27 => format!("discovery {now} {cid} 256 0 41 1"),
            28 => format!("discovery {now} {cid} 0 256 41 1"),
            29 => format!("discovery {now} {cid} 0 0 4 1"),
            30 => format!("discovery {now} {cid} 0 0 41 1, 2"),
            31 => " dump".into(),
            32 => "dump now".into(),
            33 => "reset_pairs 1".into(),
            34 => "reset_pair".into(),
            35 => "reset_discovery 0".into(),
            36 => "reset discovery".into(),
            37 => "expiry".into(),
            38 => "expiry -".into(),
            39 => "expiry 4294967296".into(),
            40 => "expiry 2500 1".into(),
            _ => format!("data {now} {cid} {universe} 0 100 1 0 00 "),
        };
        self.say(line);
    }

    // Scripts around the sizes of the node's tables.
    fn full(&mut self, short: bool) {
        self.now = 1000 + self.rng.below(1000) as u64;
        if self.rng.percent(50) {
            self.expiry();
        }
        match self.rng.weighted(&[5, 5, 2 * usize::from(!short), 3, 4]) {
            0 => self.full_waiting(short),
            1 => self.full_pages(),
            2 => self.full_pairs(),
            3 => self.full_listened(short),
            _ => self.full_lengths(short),
        }
        self.say("dump".into());
    }

    // 64 waiting universes: filled, merged onto, freed by a release, a clear or age, left by a reset, and filled again.
    fn full_waiting(&mut self, short: bool) {
        let numbers: Vec<u16> = (1..=70).collect();
        self.say(format!("listen {}", list(&numbers)));
        if self.rng.percent(50) {
            self.say("merge highest".into());
        }
        let long = !short && self.rng.percent(15);
        let mut order = numbers.clone();
        if self.rng.percent(70) {
            self.rng.shuffle(&mut order);
        }
        let stop = self.rng.pick(&[62, 63, 64, 64, 64, 65]);
        for universe in &order[..stop] {
            self.full_data(*universe, long);
        }
        for _ in 0..self.rng.between(4, 12) {
            match self.rng.below(9) {
                0 => self.say(format!("clear {}", order[0])),
                1 => {
                    let (now, cid) = (self.now, hex(&self.cids[0]));
                    let sequence = self.sequence(true, self.cids[0], 1000);
                    self.say(format!("sync {now} {cid} 1000 {sequence}"));
                }
                2 => {
                    self.now += self.rng.pick(&[1, 1200, 2499, 2500]);
                    self.say(format!("poll {}", self.now));
                }
                3 => self.say("dump".into()),
                4 => self.reset("reset_pairs"),
                _ => {
                    let universe = self.rng.pick(&order);
                    self.full_data(universe, long);
                }
            }
        }
        let (now, cid) = (self.now, hex(&self.cids[1]));
        let sequence = self.sequence(true, self.cids[1], 1000);
        self.say(format!("sync {now} {cid} 1000 {sequence}"));
    }

    fn full_data(&mut self, universe: u16, long: bool) {
        let cid = self.rng.pick(&self.cids);
        let sequence = self.sequence(false, cid, universe);
        let length = if long { 513 } else { self.rng.between(1, 3) };
        let values: Vec<u8> = (0..length)
            .map(|i| if i == 0 { 0 } else { self.rng.below(256) as u8 })
            .collect();
        let address = if self.rng.percent(90) { 1000 } else { 1001 };
        self.say(format!(
            "data {} {} {universe} {address} 100 {sequence} 0 {}",
            self.now,
            hex(&cid),
            hex(&values)
        ));
    }

    // 64 pages, partial and listed together: sources of one page and of several, sweeps and resets between.
    fn full_pages(&mut self) {
        let cids = sources_of(&mut self.rng, 70);
        let mut pages = 0;
        let stop = self.rng.pick(&[62, 63, 64, 64, 66]);
        let mut i = 0;
        while pages < stop {
            let count = self.rng.pick(&[1, 1, 2, 3, 5]).min(stop - pages);
            let last = self.rng.pick(&[count - 1, count - 1, count]);
            for page in 0..count {
                self.page(cids[i], page as u8, last as u8);
            }
            pages += count;
            i += 1;
        }
        for _ in 0..self.rng.between(3, 8) {
            match self.rng.below(6) {
                0 => {
                    self.now += self.rng.pick(&[1, 2499, 2500]);
                    self.sweep(self.now);
                }
                1 => self.say("dump".into()),
                2 => {
                    let now = self.now;
                    let universe = self.universe();
                    self.say(format!(
                        "data {now} {} {universe} 0 100 0 64 -",
                        hex(&cids[0])
                    ));
                }
                3 => {
                    let word = self.rng.pick(&["reset", "reset_pairs", "reset_discovery"]);
                    self.reset(word);
                }
                _ => {
                    let cid = self.rng.pick(&cids);
                    let last = self.rng.pick(&[0, 0, 1]);
                    self.page(cid, 0, last);
                }
            }
        }
    }

    fn page(&mut self, cid: Cid, page: u8, last: u8) {
        let length = self.rng.between(0, 3);
        let universes: Vec<u16> = (0..length).map(|_| self.universe()).collect();
        self.now += self.rng.pick(&[0, 0, 1, 30]);
        self.say(format!(
            "discovery {} {} {page} {last} 41 {}",
            self.now,
            hex(&cid),
            list(&universes)
        ));
    }

    // 1,024 pairs: many sources on many universes, in one table or the other.
    fn full_pairs(&mut self) {
        let (sources, each) = self.rng.pick(&[(33, 32), (8, 129), (1030, 1), (2, 515)]);
        let cids = sources_of(&mut self.rng, sources);
        let numbers: Vec<u16> = (1..=each as u16).collect();
        self.say(format!("listen {}", list(&numbers)));
        let sync = self.rng.percent(30);
        let stop = self.rng.pick(&[1023, 1024, 1024, 1026]);
        let mut pairs: Vec<(Cid, u16)> = cids
            .iter()
            .flat_map(|cid| numbers.iter().map(move |u| (*cid, *u)))
            .collect();
        self.rng.shuffle(&mut pairs);
        for (cid, universe) in pairs.iter().take(stop) {
            self.pair(sync, *cid, *universe);
        }
        self.say("dump".into());
        for _ in 0..self.rng.between(5, 20) {
            if self.rng.percent(20) {
                self.now += self.rng.pick(&[1, 600, 1500]);
            }
            // The one frees the table, the other leaves it.
            if self.rng.percent(4) {
                let word = self.rng.pick(&["reset_pairs", "reset_discovery"]);
                self.reset(word);
            }
            let (cid, universe) = self.rng.pick(&pairs);
            if !sync && self.rng.percent(25) {
                let now = self.now;
                self.say(format!("data {now} {} {universe} 0 100 0 64 -", hex(&cid)));
                self.last.remove(&(sync, cid, universe));
            } else {
                self.pair(sync, cid, universe);
            }
        }
    }

    fn pair(&mut self, sync: bool, cid: Cid, universe: u16) {
        self.now += u64::from(self.rng.below(3) == 0);
        let sequence = self.sequence(sync, cid, universe);
        let (now, cid) = (self.now, hex(&cid));
        self.say(if sync {
            format!("sync {now} {cid} {universe} {sequence}")
        } else {
            format!("data {now} {cid} {universe} 0 100 {sequence} 0 00")
        });
    }

    // 1,024 listened universes, reached by lists and by addresses.
    fn full_listened(&mut self, short: bool) {
        let first = self.rng.between(1, 60000) as u16;
        let most = if short {
            80
        } else {
            self.rng.pick(&[1020, 1022, 1023, 1023])
        };
        let mut numbers: Vec<u16> = (first..first + most).collect();
        self.rng.shuffle(&mut numbers);
        for part in numbers.chunks(400) {
            self.say(format!("listen {}", list(part)));
        }
        for _ in 0..self.rng.between(6, 14) {
            let universe = match self.rng.below(3) {
                0 => first
                    .wrapping_add(most)
                    .wrapping_add(self.rng.below(4) as u16),
                _ => self.rng.pick(&numbers),
            };
            match self.rng.below(5) {
                0 => self.say(format!("mute {universe}")),
                1 => self.say(format!("listening {universe}")),
                2 => self.say(format!("listen {universe},{},{universe}", numbers[0])),
                3 => self.say(format!("listen {universe},64001,0")),
                _ => {
                    let cid = self.rng.pick(&self.cids);
                    let sequence = self.sequence(false, cid, numbers[0]);
                    self.say(format!(
                        "data {} {} {} {universe} 100 {sequence} 0 0001",
                        self.now,
                        hex(&cid),
                        numbers[0]
                    ));
                }
            }
        }
    }

    // The longest value lists, names and universe lists, and one more.
    fn full_lengths(&mut self, short: bool) {
        let (universe, address) = (self.universes[0], self.addresses[0]);
        self.say(format!("listen {universe}"));
        self.say("merge highest".into());
        self.say("announce_discovery 1".into());
        let over = if short {
            0
        } else {
            usize::from(self.rng.percent(40))
        };
        for i in 0..6 {
            let cid = self.rng.pick(&self.cids);
            let sequence = self.sequence(false, cid, universe);
            let length = self.rng.pick(&[1, 511, 512, 513]);
            let length = if i == 5 { 513 + over } else { length };
            let values: Vec<u8> = (0..length)
                .map(|i| if i == 0 { 0 } else { self.rng.below(256) as u8 })
                .collect();
            let to = if self.rng.percent(80) { address } else { 0 };
            let (now, cid) = (self.now, hex(&cid));
            if i == 5 && self.rng.percent(60) {
                let name = vec![b'n'; 63 + self.rng.below(2) * over];
                let length = 512 + self.rng.below(2) * over;
                let universes: Vec<u16> = (0..length).map(|_| self.universe()).collect();
                self.say(format!(
                    "discovery {now} {cid} 0 0 {} {}",
                    hex(&name),
                    list(&universes)
                ));
            } else {
                self.say(format!(
                    "data {now} {cid} {universe} {to} 100 {sequence} 0 {}",
                    hex(&values)
                ));
            }
            if self.rng.percent(30) {
                let sequence = self.sequence(true, self.cids[0], address);
                let cid = hex(&self.cids[0]);
                self.say(format!("sync {now} {cid} {address} {sequence}"));
            }
        }
    }
}

// Sources whose CIDs are near each other: they differ in one byte, the first, the last or one in the middle.
fn sources_of(rng: &mut Rng, count: usize) -> Vec<Cid> {
    let mut base: Cid = [0; 16];
    if rng.percent(70) {
        for b in &mut base {
            *b = rng.next() as u8;
        }
    }
    let mut cids: Vec<Cid> = vec![base];
    while cids.len() < count {
        let mut cid = base;
        let at = rng.pick(&[0, 1, 7, 8, 14, 15]);
        cid[at] = cid[at].wrapping_add(rng.pick(&[1, 2, 127, 128, 255]));
        if 20 < count {
            cid[15] = rng.next() as u8;
            cid[3] = rng.next() as u8;
        } else if rng.percent(4) {
            cid = rng.pick(&[[0; 16], [255; 16]]);
        }
        if !cids.contains(&cid) {
            cids.push(cid);
        }
    }
    rng.shuffle(&mut cids);
    cids
}
