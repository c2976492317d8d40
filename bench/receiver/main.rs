//! The crate sacn 0.11.1 as published and the proved library, with the same packets, in turn.
//!
//! Both sides get a step for each packet: the timeout checks and the packet's handler; a poll is the timeout checks alone. Both read the machine's clock: the
//! crate by its own `Instant`, the library's side by one reading for each step, which is handed to it. A round takes every step of a case once; the sides take
//! turns, batch by batch.

#![allow(warnings)]

mod error;
mod packet;
mod receive;
mod sacn_parse_pack_error;

use receive::access::Published;
use std::hint::black_box;
use std::time::Instant;
use tamburelvi::{Cid, DataPacket, DiscoveryPacket, Receiver, Step, Stop, SyncPacket};

const ADDRESS: u16 = 60_000;
const PAIRS: [usize; 4] = [1, 10, 100, 1_000];
/// As many universes as can wait.
const WAITING: usize = 64;
/// At least so many steps stand between two looks at the clock that times them.
const BATCH: usize = 1_000;

struct Proved {
    receiver: Receiver,
    start: Instant,
}

impl Proved {
    fn new(universes: &[u16], announced: bool) -> Proved {
        let mut receiver = Receiver::new();
        receiver.listen_universes(universes).expect("legal universes");
        receiver.set_announce_timeout(announced);
        Proved {
            receiver,
            start: Instant::now(),
        }
    }

    fn reading(&self) -> u64 {
        self.start.elapsed().as_millis() as u64
    }

    fn poll(&mut self) {
        self.receiver.poll(self.reading()).expect("nothing times out");
    }

    fn data(&mut self, packet: &DataPacket) -> (usize, usize) {
        released(self.receiver.handle_data_packet(self.reading(), packet))
    }

    fn sync(&mut self, packet: &SyncPacket) -> (usize, usize) {
        released(self.receiver.handle_sync_packet(self.reading(), packet))
    }

    fn discovery(&mut self, packet: &DiscoveryPacket) -> bool {
        let reading = self.reading();
        match self.receiver.handle_universe_discovery_packet(reading, packet) {
            Ok(()) => false,
            Err(Stop::SourceDiscovered(_)) => true,
            Err(stop) => panic!("{stop}"),
        }
    }

    fn held(&self) -> (usize, usize) {
        (self.receiver.data_pairs().len(), self.receiver.waiting_data().len())
    }
}

fn released(step: Result<Step, Stop>) -> (usize, usize) {
    match step.expect("accepted") {
        Step::Nothing => (0, 0),
        Step::Released(records) => records.fold((0, 0), |(n, v), r| (n + 1, v + r.values.len())),
        other => panic!("{other:?}"),
    }
}

/// One step of a round; data and synchronisation packets get the round's sequence number.
#[derive(Clone, Copy)]
enum Packet {
    Data {
        cid: Cid,
        universe: u16,
        address: u16,
    },
    Sync {
        cid: Cid,
    },
    /// No packet, the timeout checks alone.
    Poll,
}

/// The step of one side, 0 the crate and 1 the library; how many records it releases, and how many values in all.
#[inline(always)]
fn step(
    side: usize,
    published: &mut Published,
    proved: &mut Proved,
    packet: Packet,
    sequence: u8,
    values: &[u8],
) -> (usize, usize) {
    match packet {
        Packet::Data { cid, universe, address } => {
            let packet = DataPacket {
                address,
                ..DataPacket::new(cid, universe, sequence, black_box(values))
            };
            if side == 0 {
                published.data(&packet)
            } else {
                proved.data(&packet)
            }
        }
        Packet::Sync { cid } => {
            let packet = SyncPacket {
                cid,
                address: ADDRESS,
                sequence,
            };
            if side == 0 {
                published.sync(&packet)
            } else {
                proved.sync(&packet)
            }
        }
        Packet::Poll => {
            if side == 0 {
                published.poll();
            } else {
                proved.poll();
            }
            (0, 0)
        }
    }
}

struct Case {
    what: &'static str,
    size: usize,
    /// Whether timeouts are announced.
    announced: bool,
    /// Sent anew before each batch and not timed, so that they do not time out.
    kept: Vec<Packet>,
    packets: Vec<Packet>,
    /// How many pairs are known and how many universes wait between two rounds.
    held: (usize, usize),
}

fn cid(source: usize) -> Cid {
    let mut bytes = [0; 16];
    let mixed = (source as u64 + 1).wrapping_mul(0x9E37_79B9_7F4A_7C15);
    bytes[..8].copy_from_slice(&mixed.to_be_bytes());
    bytes[8..].copy_from_slice(&(source as u64).to_be_bytes());
    Cid(bytes)
}

/// Each source sends ten universes of its own.
fn data(place: usize, address: u16) -> Packet {
    Packet::Data {
        cid: cid(place / 10),
        universe: place as u16 + 1,
        address,
    }
}

/// Address 0; the places are gone through in steps of seven.
fn unsynchronised(pairs: usize, announced: bool) -> Case {
    Case {
        what: if announced {
            "unsynchronised data, timeouts announced"
        } else {
            "unsynchronised data"
        },
        size: pairs,
        announced,
        kept: Vec::new(),
        packets: (0..pairs).map(|i| data(i * 7 % pairs, 0)).collect(),
        held: (pairs, 0),
    }
}

/// Each source sends up to fifty universes, which wait, and then a synchronisation packet, which releases them.
fn synchronised(pairs: usize) -> Case {
    let each = pairs.min(50);
    let mut packets = Vec::new();
    for source in 0..pairs / each {
        for universe in 0..each {
            packets.push(Packet::Data {
                cid: cid(source),
                universe: universe as u16 + 1,
                address: ADDRESS,
            });
        }
        packets.push(Packet::Sync { cid: cid(source) });
    }
    Case {
        what: "synchronised data",
        size: pairs,
        announced: false,
        kept: Vec::new(),
        packets,
        held: (pairs, 0),
    }
}

/// Nothing has arrived and nothing has timed out.
fn idle(pairs: usize) -> Case {
    Case {
        what: "poll, nothing to do",
        size: pairs,
        announced: false,
        kept: (0..pairs).map(|i| data(i, 0)).collect(),
        packets: vec![Packet::Poll],
        held: (pairs, 0),
    }
}

/// Address 0, for another universe than those that wait.
fn others_wait() -> Case {
    Case {
        what: "unsynchronised data, universes wait",
        size: WAITING,
        announced: false,
        kept: (0..WAITING).map(|i| data(i, ADDRESS)).collect(),
        packets: vec![data(WAITING, 0)],
        held: (WAITING + 1, WAITING),
    }
}

fn median(mut all: Vec<f64>) -> f64 {
    all.sort_by(f64::total_cmp);
    all[all.len() / 2]
}

fn print_row(what: &str, size: &str, published: Vec<f64>, proved: Vec<f64>) {
    let least = |all: &[f64]| all.iter().copied().fold(f64::INFINITY, f64::min);
    let (a, b) = (least(&published), least(&proved));
    let (m, n) = (median(published), median(proved));
    println!(
        "| {what} | {size} | {:.1} | {:.1} | {m:.0} | {n:.0} | {a:.0} | {b:.0} |",
        m / n,
        a / b
    );
}

/// The packets of the case, round after round, by turns through both sides.
fn run(case: Case, seconds: f64) {
    let values: Vec<u8> = (0..513).map(|i| (i * 31 % 251) as u8).collect();
    let universes: Vec<u16> = (1..=case.held.0 as u16).collect();
    let mut published = Published::new(&universes, case.announced);
    let mut proved = Proved::new(&universes, case.announced);
    let repeats = BATCH.div_ceil(case.packets.len());
    let mut sequence = 0u8;
    let mut times = (Vec::new(), Vec::new());
    let start = Instant::now();
    // The first batch makes the pairs known and is not counted.
    for batch in 0.. {
        let mut outcomes = [(0, 0); 2];
        let first = sequence;
        for side in 0..2 {
            let mut s = first;
            let (mut records, mut bytes) = (0, 0);
            for p in &case.kept {
                let (n, v) = step(side, &mut published, &mut proved, *p, batch as u8, &values);
                records += n;
                bytes += v;
            }
            let began = Instant::now();
            for _ in 0..repeats {
                for p in &case.packets {
                    let (n, v) = step(side, &mut published, &mut proved, *p, s, &values);
                    records += n;
                    bytes += v;
                }
                s = s.wrapping_add(1);
            }
            let each = began.elapsed().as_nanos() as f64 / (repeats * case.packets.len()) as f64;
            outcomes[side] = (records, bytes);
            if batch > 0 {
                if side == 0 {
                    times.0.push(each);
                } else {
                    times.1.push(each);
                }
            }
            sequence = s;
        }
        assert_eq!(outcomes[0], outcomes[1], "both release the same");
        assert_eq!([published.held(), proved.held()], [case.held; 2], "both hold the same");
        if batch >= 15 && start.elapsed().as_secs_f64() > seconds {
            break;
        }
    }
    print_row(case.what, &case.size.to_string(), times.0, times.1);
}

/// A round: both discovery lists are forgotten, then the pages arrive, one after another, until the last one lists its source.
fn discovery(what: &str, sources: usize, pages: usize, seconds: f64) {
    let list: Vec<u16> = (1..=512).collect();
    let mut published = Published::new(&[], false);
    let mut proved = Proved::new(&[], false);
    proved.receiver.set_announce_source_discovery(true);
    let repeats = BATCH.div_ceil(sources * pages);
    let mut times = (Vec::new(), Vec::new());
    let start = Instant::now();
    for batch in 0.. {
        let mut listed = [0; 2];
        for side in 0..2 {
            let began = Instant::now();
            for _ in 0..repeats {
                if side == 0 {
                    published.reset_discovery();
                } else {
                    proved.receiver.reset_discovery();
                }
                for source in 0..sources {
                    for page in 0..pages {
                        let packet = DiscoveryPacket {
                            cid: cid(source),
                            page: page as u8,
                            last_page: pages as u8 - 1,
                            name: b"a desk",
                            universes: black_box(&list),
                        };
                        listed[side] += usize::from(if side == 0 {
                            published.discovery(&packet)
                        } else {
                            proved.discovery(&packet)
                        });
                    }
                }
            }
            let each = began.elapsed().as_nanos() as f64 / (repeats * sources * pages) as f64;
            if batch > 0 {
                if side == 0 {
                    times.0.push(each);
                } else {
                    times.1.push(each);
                }
            }
        }
        assert_eq!(listed, [repeats * sources; 2], "both list every source");
        if batch >= 15 && start.elapsed().as_secs_f64() > seconds {
            break;
        }
    }
    print_row(what, &format!("{sources} x {pages}"), times.0, times.1);
}

fn main() {
    let seconds = std::env::args()
        .nth(1)
        .map_or(4.0, |s| s.parse().expect("seconds for each row"));
    println!("| step | size | ratio | ratio of least | crate, ns | library, ns | crate, least | library, least |");
    println!("|---|---|---|---|---|---|---|---|");
    for announced in [false, true] {
        for pairs in PAIRS {
            run(unsynchronised(pairs, announced), seconds);
        }
    }
    for pairs in PAIRS {
        run(synchronised(pairs), seconds);
    }
    run(others_wait(), seconds);
    run(idle(1_000), seconds);
    discovery("discovery, one source", 1, 64, seconds);
    discovery("discovery, one page each", 64, 1, seconds);
}
