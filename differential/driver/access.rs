//! The replay commands as calls of the crate's own functions, and the crate's private state as dump lines.
//!
//! The builder appends this file to the test copy as a child module of `receive`, so that private fields are in reach.

use super::*;
use crate::clock;
use crate::record::{self, FRESH_EXPIRY, Settings};
use crate::script::{Command, Data, Discovery, Sync};
use std::io::{self, Write};

/// What a command answers: nothing further, a yes or no, released data, a record, settings, or a stop that the crate has not, as
/// it is printed.
enum Done {
    Nothing,
    Held(bool),
    Released(Vec<DMXData>),
    Stored(Vec<u8>),
    Shown(Settings),
    Refused(&'static str),
}

/// The discovery expiry that the crate sweeps by.
const CRATE_EXPIRY: u32 = 2_500;

/// A receiver, made by the crate's own constructor, and beside it the discovery expiry, which the crate has not.
pub struct Replay {
    receiver: SacnReceiver,
    expiry: u32,
    /// Gives document 01's 1 and 10 to 13 as well, which the crate has not: a stand-in for the port.
    limits: bool,
}

fn receiver(limit: Option<usize>) -> Result<SacnReceiver> {
    SacnReceiver::with_ip(
        SocketAddr::from(([127, 0, 0, 1], ACN_SDT_MULTICAST_PORT)),
        limit,
    )
}

impl Replay {
    pub fn new(limits: bool) -> Replay {
        let receiver = receiver(None).expect("a fresh receiver");
        Replay {
            receiver,
            expiry: FRESH_EXPIRY,
            limits,
        }
    }

    /// Carries out one command and prints its answer.
    pub fn carry_out(&mut self, command: Command, out: &mut impl Write) -> io::Result<()> {
        if let Command::Dump = command {
            return self.dump(out);
        }
        if self.limits
            && let Some(length) = too_long(&command)
        {
            return writeln!(out, "1 {length}");
        }
        let full = self.limits && matches!(command, Command::Discovery(_)) && 64 <= self.pages();
        match self.call(command, full) {
            None => writeln!(out, "13"),
            Some(answer) => match self.over() {
                Some(number) if self.limits => writeln!(out, "{number}"),
                _ => print_answer(answer, out),
            },
        }
    }

    // `None` stands for the stop at 64 pages, which comes behind the poll.
    fn call(&mut self, command: Command, full: bool) -> Option<Result<Done>> {
        let r = &mut self.receiver;
        Some(match command {
            Command::Fresh => {
                *r = receiver(None).expect("a fresh receiver");
                self.expiry = FRESH_EXPIRY;
                Ok(Done::Nothing)
            }
            Command::Preview(on) => {
                r.set_process_preview_data(on);
                Ok(Done::Nothing)
            }
            Command::AnnounceDiscovery(on) => {
                r.set_announce_source_discovery(on);
                Ok(Done::Nothing)
            }
            Command::AnnounceTermination(on) => {
                r.set_announce_stream_termination(on);
                Ok(Done::Nothing)
            }
            Command::AnnounceTimeout(on) => {
                r.set_announce_timeout(on);
                Ok(Done::Nothing)
            }
            Command::MergeHighest(on) => r.set_merge_fn(merge_of(on)).map(|()| Done::Nothing),
            // The crate takes its limit when a receiver is made: make one, and hand its limit over.
            Command::Limit(limit) => receiver(limit.map(usize::from)).map(|made| {
                r.source_limit = made.source_limit;
                Done::Nothing
            }),
            // Document 02, F-3: the crate has no such setting.
            Command::Expiry(expiry) if !(2_500..=60_000).contains(&expiry) => {
                Ok(Done::Refused("20"))
            }
            Command::Expiry(expiry) => {
                self.expiry = expiry;
                Ok(Done::Nothing)
            }
            // Document 02, F-6: the crate has no records; they hold what its receiver holds.
            Command::StoreSettings(length) => {
                let mut lent = vec![0xcc; length];
                let stored = record::store(&self.settings(), &mut lent);
                Ok(stored.map_or_else(Done::Refused, |()| Done::Stored(lent)))
            }
            Command::LoadSettings { record, only_1 } => match record::load(&record, only_1) {
                Err(stop) => Ok(Done::Refused(stop)),
                Ok(settings) => {
                    self.put(settings);
                    Ok(Done::Nothing)
                }
            },
            Command::Settings => Ok(Done::Shown(self.settings())),
            Command::RawLimit(limit) => {
                r.source_limit = Some(usize::from(limit));
                Ok(Done::Nothing)
            }
            Command::RawExpiry(expiry) => {
                self.expiry = expiry;
                Ok(Done::Nothing)
            }
            Command::Listen(universes) => r.listen_universes(&universes).map(|()| Done::Nothing),
            Command::Mute(universe) => r.mute_universe(universe).map(|()| Done::Nothing),
            Command::Listening(universe) => Ok(Done::Held(r.is_listening(&universe))),
            Command::Poll(now) => poll(r, now).map(|()| Done::Nothing),
            Command::Sweep(now) => {
                clock::set(now);
                r.remove_expired_sources();
                Ok(Done::Nothing)
            }
            Command::Clear(universe) => Ok(Done::Held(r.clear_waiting_data(universe))),
            Command::ClearAll => {
                r.clear_all_waiting_data();
                Ok(Done::Nothing)
            }
            Command::Reset => {
                r.reset_sources();
                Ok(Done::Nothing)
            }
            // Document 02, F-2: the crate has no halves; each is what `reset_sources` does to its fields.
            Command::ResetPairs => {
                r.sequences.clear();
                Ok(Done::Nothing)
            }
            Command::ResetDiscovery => {
                r.partially_discovered_sources.clear();
                r.discovered_sources.clear();
                Ok(Done::Nothing)
            }
            Command::Data(packet) => poll(r, packet.now).and_then(|()| data(r, packet)),
            Command::Sync(packet) => poll(r, packet.now).and_then(|()| sync(r, packet)),
            Command::Discovery(packet) => match poll(r, packet.now) {
                Ok(()) if full => return None,
                polled => polled.and_then(|()| discovery(r, packet)),
            },
            Command::Dump => Ok(Done::Nothing),
        })
    }

    // The settings that the crate's receiver holds, and the discovery expiry.
    fn settings(&self) -> Settings {
        let r = &self.receiver;
        Settings {
            preview: r.process_preview_data,
            announce_discovery: r.announce_source_discovery,
            announce_termination: r.announce_stream_termination,
            announce_timeout: r.announce_timeout,
            highest: is_highest(r.merge_func),
            limit: r.source_limit.map(|l| l.try_into().expect("16 bits")),
            expiry: self.expiry,
        }
    }

    fn put(&mut self, settings: Settings) {
        let r = &mut self.receiver;
        r.process_preview_data = settings.preview;
        r.announce_source_discovery = settings.announce_discovery;
        r.announce_stream_termination = settings.announce_termination;
        r.announce_timeout = settings.announce_timeout;
        r.merge_func = merge_of(settings.highest);
        r.source_limit = settings.limit.map(usize::from);
        self.expiry = settings.expiry;
    }

    /// Why the crate cannot carry out the command, if so.
    pub fn outside(&self, command: &Command) -> Option<String> {
        match command {
            Command::Sweep(_) if self.expiry != CRATE_EXPIRY => Some(format!(
                "the crate's discovery sweep is by {CRATE_EXPIRY} ms, and the discovery expiry is {}: set `expiry {CRATE_EXPIRY}` before it",
                self.expiry
            )),
            Command::Discovery(packet) if std::str::from_utf8(&packet.name).is_err() => {
                Some("a name that is not UTF-8 lies outside the differential domain".into())
            }
            _ => None,
        }
    }

    fn pages(&self) -> usize {
        let r = &self.receiver;
        r.partially_discovered_sources
            .iter()
            .chain(&r.discovered_sources)
            .map(|s| s.pages.len())
            .sum()
    }

    // The stop that document 01 has and the crate has not, if the state has outgrown the node's tables.
    fn over(&self) -> Option<u8> {
        let r = &self.receiver;
        let pairs = |t: &HashMap<Uuid, HashMap<u16, TimedStampedSeqNo>>| {
            t.values().map(|u| u.len()).sum::<usize>()
        };
        if 1024 < pairs(&r.sequences.data_sequences) || 1024 < pairs(&r.sequences.sync_sequences) {
            Some(10)
        } else if 1024 < r.universes.len() {
            Some(11)
        } else if 64 < r.waiting_data.len() {
            Some(12)
        } else {
            None
        }
    }

    fn dump(&self, out: &mut impl Write) -> io::Result<()> {
        let r = &self.receiver;
        dump_pairs("d", &r.sequences.data_sequences, out)?;
        dump_pairs("y", &r.sequences.sync_sequences, out)?;
        for (universe, w) in &r.waiting_data {
            write!(
                out,
                "w {universe} {} {} {} ",
                w.sync_uni,
                w.priority,
                u8::from(w.preview)
            )?;
            match w.src_cid {
                Some(cid) => hex(cid.as_bytes(), out)?,
                None => write!(out, "-")?,
            }
            write!(out, " {} ", w.recv_timestamp.0)?;
            byte_string(&w.values, out)?;
            writeln!(out)?;
            // The key and the entry's own universe are one.
            assert_eq!(*universe, w.universe);
        }
        write!(out, "l ")?;
        list(&r.universes, out)?;
        writeln!(out)?;
        dump_sources("p", &r.partially_discovered_sources, out)?;
        dump_sources("q", &r.discovered_sources, out)?;
        writeln!(out, ".")
    }
}

type Merge = fn(&DMXData, &DMXData) -> Result<DMXData>;

fn merge_of(highest: bool) -> Merge {
    if highest {
        htp_dmx_merge
    } else {
        DEFAULT_MERGE_FUNC
    }
}

fn is_highest(merge: Merge) -> bool {
    let highest = std::ptr::fn_addr_eq(merge, merge_of(true));
    assert!(highest != std::ptr::fn_addr_eq(merge, merge_of(false)));
    highest
}

fn too_long(command: &Command) -> Option<usize> {
    let over = |length: usize, most: usize| (most < length).then_some(length);
    match command {
        Command::Data(packet) => over(packet.values.len(), 513),
        Command::Discovery(packet) => {
            over(packet.name.len(), 63).or(over(packet.universes.len(), 512))
        }
        _ => None,
    }
}

// The two timeout checks that `recv` makes before it takes a packet.
fn poll(r: &mut SacnReceiver, now: u64) -> Result<()> {
    clock::set(now);
    r.sequences.check_timeouts(r.announce_timeout)?;
    r.check_waiting_data_timeouts();
    Ok(())
}

fn data(r: &mut SacnReceiver, packet: Data) -> Result<Done> {
    let framing = DataPacketFramingLayer {
        source_name: "".into(),
        priority: packet.priority,
        synchronization_address: packet.address,
        sequence_number: packet.sequence,
        preview_data: packet.options & E131_PREVIEW_DATA_OPTION_BIT_MASK != 0,
        stream_terminated: packet.options & E131_STREAM_TERMINATION_OPTION_BIT_MASK != 0,
        force_synchronization: packet.options & E131_FORCE_SYNCHRONISATION_OPTION_BIT_MASK != 0,
        universe: packet.universe,
        data: DataPacketDmpLayer {
            property_values: packet.values.into(),
        },
    };
    r.handle_data_packet(Uuid::from_bytes(packet.cid), framing)
        .map(released)
}

fn sync(r: &mut SacnReceiver, packet: Sync) -> Result<Done> {
    let framing = SynchronizationPacketFramingLayer {
        sequence_number: packet.sequence,
        synchronization_address: packet.address,
    };
    r.handle_sync_packet(Uuid::from_bytes(packet.cid), framing)
        .map(released)
}

// As `recv` does: the name is given only if discovery is announced.
fn discovery(r: &mut SacnReceiver, packet: Discovery) -> Result<Done> {
    let name = String::from_utf8(packet.name).expect("a name that is UTF-8");
    let framing = UniverseDiscoveryPacketFramingLayer {
        source_name: name.into(),
        data: UniverseDiscoveryPacketUniverseDiscoveryLayer {
            page: packet.page,
            last_page: packet.last,
            universes: packet.universes.into(),
        },
    };
    match r.handle_universe_discovery_packet(Uuid::from_bytes(packet.cid), framing) {
        Some(name) if r.announce_source_discovery => Err(SacnError::SourceDiscovered(name)),
        _ => Ok(Done::Nothing),
    }
}

fn released(data: Option<Vec<DMXData>>) -> Done {
    data.map_or(Done::Nothing, Done::Released)
}

// Document 01's number and values for each of the crate's errors.
fn print_answer(answer: Result<Done>, out: &mut impl Write) -> io::Result<()> {
    match answer {
        Ok(Done::Nothing) => write!(out, "0")?,
        Ok(Done::Held(held)) => write!(out, "0 {}", u8::from(held))?,
        Ok(Done::Refused(stop)) => write!(out, "{stop}")?,
        Ok(Done::Stored(bytes)) => {
            write!(out, "0 ")?;
            byte_string(&bytes, out)?;
        }
        Ok(Done::Shown(settings)) => show(&settings, out)?,
        Ok(Done::Released(data)) => {
            let mut bytes = Vec::new();
            data.iter().for_each(|d| record(d, &mut bytes));
            write!(out, "0 release {} {} ", data.len(), bytes.len())?;
            hex(&bytes, out)?;
        }
        Err(SacnError::IllegalUniverse(universe)) => write!(out, "2 {universe}")?,
        Err(SacnError::UniverseNotFound(universe)) => write!(out, "3 {universe}")?,
        Err(SacnError::UniverseTimeout(cid, universe)) => pair(4, cid, universe, out)?,
        Err(SacnError::UniverseTerminated(cid, universe)) => pair(5, cid, universe, out)?,
        Err(SacnError::SourcesExceededError(count)) => write!(out, "6 {count}")?,
        // Document 02, F-4: difference 0 is a repeat, which has the values of 7 and the number 21.
        Err(SacnError::OutOfSequence(arriving, last, difference)) => {
            let number = if difference == 0 { 21 } else { 7 };
            write!(out, "{number} {arriving} {last} {difference}")?
        }
        Err(SacnError::DmxMergeError()) => write!(out, "8")?,
        Err(SacnError::SourceDiscovered(name)) => {
            write!(out, "9 ")?;
            byte_string(name.as_bytes(), out)?;
        }
        Err(SacnError::SourceLimitZero()) => write!(out, "14")?,
        Err(other) => panic!("no number for {other:?}"),
    }
    writeln!(out)
}

fn show(s: &Settings, out: &mut impl Write) -> io::Result<()> {
    let flags = [
        s.preview,
        s.announce_discovery,
        s.announce_termination,
        s.announce_timeout,
    ];
    write!(out, "0")?;
    for flag in flags {
        write!(out, " {}", u8::from(flag))?;
    }
    let merge = if s.highest { "highest" } else { "priority" };
    let limit = s.limit.map_or("none".into(), |l| l.to_string());
    write!(out, " {merge} {limit} {}", s.expiry)
}

fn pair(number: u8, cid: Uuid, universe: u16, out: &mut impl Write) -> io::Result<()> {
    write!(out, "{number} ")?;
    hex(cid.as_bytes(), out)?;
    write!(out, " {universe}")
}

// Document 01's released bytes.
fn record(data: &DMXData, bytes: &mut Vec<u8>) {
    bytes.extend([0x55, 0x44]);
    bytes.extend(data.universe.to_be_bytes());
    bytes.extend(data.sync_uni.to_be_bytes());
    bytes.extend([
        data.priority,
        u8::from(data.preview),
        u8::from(data.src_cid.is_some()),
    ]);
    bytes.extend(data.src_cid.map_or([0; 16], |cid| *cid.as_bytes()));
    bytes.extend(data.recv_timestamp.0.to_be_bytes());
    bytes.extend((data.values.len() as u16).to_be_bytes());
    bytes.extend(&data.values);
}

fn dump_pairs(
    mark: &str,
    table: &HashMap<Uuid, HashMap<u16, TimedStampedSeqNo>>,
    out: &mut impl Write,
) -> io::Result<()> {
    for (cid, universes) in table {
        for (universe, last) in universes {
            write!(out, "{mark} ")?;
            hex(cid.as_bytes(), out)?;
            writeln!(
                out,
                " {universe} {} {}",
                last.sequence_number, last.last_recv.0
            )?;
        }
    }
    write!(out, "{mark}c ")?;
    if table.is_empty() {
        write!(out, "-")?;
    }
    for (i, cid) in table.keys().enumerate() {
        if 0 < i {
            write!(out, ",")?;
        }
        hex(cid.as_bytes(), out)?;
    }
    writeln!(out)
}

fn dump_sources(
    mark: &str,
    sources: &[DiscoveredSacnSource],
    out: &mut impl Write,
) -> io::Result<()> {
    for s in sources {
        write!(out, "{mark} ")?;
        hex(s.cid.as_bytes(), out)?;
        write!(out, " ")?;
        byte_string(s.name.as_bytes(), out)?;
        writeln!(
            out,
            " {} {} {}",
            s.last_page,
            s.last_updated.0,
            s.pages.len()
        )?;
        for page in &s.pages {
            write!(out, "{mark}p {} ", page.page)?;
            list(&page.universes, out)?;
            writeln!(out)?;
        }
    }
    Ok(())
}

fn hex(bytes: &[u8], out: &mut impl Write) -> io::Result<()> {
    const DIGITS: &[u8; 16] = b"0123456789abcdef";
    for b in bytes {
        out.write_all(&[DIGITS[usize::from(b >> 4)], DIGITS[usize::from(b & 15)]])?;
    }
    Ok(())
}

fn byte_string(bytes: &[u8], out: &mut impl Write) -> io::Result<()> {
    if bytes.is_empty() {
        return write!(out, "-");
    }
    hex(bytes, out)
}

fn list(numbers: &[u16], out: &mut impl Write) -> io::Result<()> {
    if numbers.is_empty() {
        return write!(out, "-");
    }
    for (i, n) in numbers.iter().enumerate() {
        if 0 < i {
            write!(out, ",")?;
        }
        write!(out, "{n}")?;
    }
    Ok(())
}
