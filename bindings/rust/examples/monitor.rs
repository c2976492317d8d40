//! What an operator sees of two desks: `cargo run --example monitor`.
//!
//! The packets are made by hand and the clock is part of them, so that no network is needed. A monitor on a network joins the groups of the listened
//! universes, reads packets from its socket and a clock of milliseconds, and does the rest as it is done here.

use std::error::Error;
use tamburelvi::{Cid, DataPacket, DiscoveryPacket, Merge, Name, Receiver, Step, Stop, SyncPacket};

const NORTH: Cid = Cid([0x11; 16]);
const SOUTH: Cid = Cid([0x22; 16]);
const GUEST: Cid = Cid([0x33; 16]);

/// What comes in at a time.
enum Event {
    Data(DataPacket<'static>),
    Sync(SyncPacket),
    Discovery(DiscoveryPacket<'static>),
    /// No packet came for a while.
    Silence,
}

/// Universe 2 waits for the synchronisation packets of address 7.
fn waits(cid: Cid, sequence: u8, values: &'static [u8]) -> DataPacket<'static> {
    DataPacket {
        address: 7,
        ..DataPacket::new(cid, 2, sequence, values)
    }
}

fn events() -> Vec<(u64, Event)> {
    let page = |cid, name, universes| DiscoveryPacket {
        cid,
        page: 0,
        last_page: 0,
        name,
        universes,
    };
    let sync = SyncPacket {
        cid: NORTH,
        address: 7,
        sequence: 0,
    };
    let ends = DataPacket {
        terminated: true,
        ..DataPacket::new(SOUTH, 1, 1, &[0])
    };
    let urgent = DataPacket {
        priority: 150,
        ..DataPacket::new(SOUTH, 1, 0, &[0, 9])
    };
    vec![
        (0, Event::Discovery(page(NORTH, b"North desk", &[1, 2]))),
        (
            10,
            Event::Data(DataPacket::new(NORTH, 1, 0, &[0, 255, 128])),
        ),
        (20, Event::Data(urgent)),
        // The packet of 10 ms again, by the monitor's other port, and one that is late.
        (
            30,
            Event::Data(DataPacket::new(NORTH, 1, 0, &[0, 255, 128])),
        ),
        (35, Event::Data(DataPacket::new(NORTH, 1, 255, &[0, 250]))),
        (40, Event::Data(waits(NORTH, 0, &[0, 10, 200]))),
        (50, Event::Data(waits(SOUTH, 0, &[0, 50]))),
        (60, Event::Sync(sync)),
        (
            70,
            Event::Discovery(page(SOUTH, b"South \x1b[1mdesk", &[1, 2])),
        ),
        (80, Event::Data(DataPacket::new(GUEST, 1, 0, &[0, 1]))),
        (90, Event::Data(ends)),
        (
            2_540,
            Event::Data(DataPacket::new(NORTH, 1, 1, &[0, 240, 120])),
        ),
        (2_700, Event::Silence),
        (2_800, Event::Data(DataPacket::new(GUEST, 1, 0, &[0, 1]))),
    ]
}

fn show(step: Step) {
    match step {
        Step::Nothing => println!("          nothing is released"),
        Step::Released(records) => {
            for r in records {
                let from = r.cid.map_or("several sources".into(), |c| c.to_string());
                println!(
                    "          universe {}, priority {}, from {from}: {:?}",
                    r.universe, r.priority, r.values
                );
            }
        }
        other => println!("          {other:?}"),
    }
}

/// A step or a poll. A stop is told and is no reason to end.
fn take(receiver: &mut Receiver, now: u64, event: &Event) -> Result<(), Stop> {
    match event {
        Event::Data(packet) => show(receiver.handle_data_packet(now, packet)?),
        Event::Sync(packet) => show(receiver.handle_sync_packet(now, packet)?),
        Event::Discovery(packet) => receiver.handle_universe_discovery_packet(now, packet)?,
        Event::Silence => receiver.poll(now)?,
    }
    Ok(())
}

fn title(event: &Event) -> String {
    match event {
        Event::Data(p) => format!("data for universe {} from {}", p.universe, p.cid),
        Event::Sync(p) => format!("synchronisation of address {} from {}", p.address, p.cid),
        Event::Discovery(p) => format!("page {} of {} from {}", p.page, p.last_page, p.cid),
        Event::Silence => "no packet".into(),
    }
}

fn main() -> Result<(), Box<dyn Error>> {
    let mut receiver = Receiver::new();
    receiver.listen_universes(&[1, 2])?;
    receiver.set_merge(Merge::HtpDmxMerge);
    receiver.set_source_limit(Some(2))?;
    receiver.set_announce_source_discovery(true);
    receiver.set_announce_stream_termination(true);
    receiver.set_announce_timeout(true);

    for (now, event) in events() {
        println!("{now:>5} ms  {}", title(&event));
        while let Err(stop) = take(&mut receiver, now, &event) {
            // A repeat is no fault: with two network ports each packet is heard twice.
            if matches!(stop, Stop::Repeated { .. }) {
                println!("          heard before");
                break;
            }
            println!("          ! {stop}");
            // Only after a timeout was the packet not looked at: it is offered again, until nothing is left to announce.
            if !matches!(stop, Stop::UniverseTimeout(..)) {
                break;
            }
        }
    }

    let now = 2_800;
    println!("\nHeard from, by source and universe:");
    for pair in receiver.data_pairs() {
        println!(
            "  {} on universe {}, {} ms ago",
            pair.cid,
            pair.universe,
            now - pair.reading
        );
    }
    println!("Discovered:");
    for source in receiver.listed_sources() {
        // The name came from the network: a `Name` shows it without obeying what stands in it.
        let name = Name::try_from(source.name)?;
        let universes: Vec<u16> = source.pages().flat_map(|p| p.universes).copied().collect();
        println!("  {name} ({:#}): universes {universes:?}", source.cid);
    }
    // Sources announce themselves every 10 seconds. These two no longer do, and go at the age of the discovery expiry, fresh 20 seconds.
    for now in [now, 20_000, 20_070] {
        receiver.remove_expired_sources(now);
        let left = receiver.listed_sources().count();
        println!("  after the discovery sweep at {now} ms: {left}");
    }
    let listened: Vec<u16> = receiver.listened_universes().collect();
    println!("Listened to: {listened:?}");
    Ok(())
}
