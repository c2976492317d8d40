//! What the binding itself does: numbers into enums, released bytes into records, state from call to call.

use tamburelvi::{
    Cid, DataPacket, DiscoveryPacket, Merge, Receiver, Settings, Step, Stop, SyncPacket,
};

fn packet(source: u8, universe: u16, sequence: u8, values: &[u8]) -> DataPacket<'_> {
    DataPacket::new(Cid([source; 16]), universe, sequence, values)
}

type Seen = (u16, u16, Option<Cid>, u64, Vec<u8>);

fn released(step: Result<Step, Stop>) -> Vec<Seen> {
    match step.expect("nothing stops it") {
        Step::Nothing => Vec::new(),
        Step::Released(records) => records
            .map(|r| (r.universe, r.address, r.cid, r.reading, r.values.to_vec()))
            .collect(),
        other => panic!("{other:?}"),
    }
}

#[test]
fn a_packet_is_released() {
    let mut receiver = Receiver::new();
    receiver.listen_universes(&[1]).unwrap();
    let step = receiver.handle_data_packet(1000, &packet(0x11, 1, 0, &[0, 255]));
    let Ok(Step::Released(records)) = step else {
        panic!("{step:?}");
    };
    let mut bytes = vec![0x55, 0x44, 0, 1, 0, 0, 0x64, 0, 1];
    bytes.extend([0x11; 16]);
    bytes.extend([0, 0, 0, 0, 0, 0, 3, 0xE8, 0, 2, 0, 255]);
    assert_eq!((records.len(), records.bytes()), (1, &bytes[..]));
    let all: Vec<_> = records.collect();
    assert_eq!(all.len(), 1);
    assert_eq!(
        (all[0].universe, all[0].priority, all[0].cid),
        (1, 100, Some(Cid([0x11; 16])))
    );
    assert_eq!((all[0].reading, all[0].values), (1000, &[0, 255][..]));
}

#[test]
fn waiting_data_is_released_by_ascending_universe() {
    let mut receiver = Receiver::new();
    receiver.set_merge(Merge::HtpDmxMerge);
    receiver.listen_universes(&[1, 2]).unwrap();
    let synchronised = |source, universe, values| DataPacket {
        address: 7,
        ..packet(source, universe, 0, values)
    };
    for (source, universe, values) in [(1, 2, &[0, 9][..]), (1, 1, &[0, 5]), (2, 1, &[0, 3, 8])] {
        let step = receiver.handle_data_packet(10, &synchronised(source, universe, values));
        assert!(released(step).is_empty());
    }
    assert_eq!(receiver.waiting_data().len(), 2);
    let sync = SyncPacket {
        cid: Cid([1; 16]),
        address: 7,
        sequence: 0,
    };
    assert_eq!(
        released(receiver.handle_sync_packet(20, &sync)),
        [
            (1, 7, None, 10, vec![0, 5, 8]),
            (2, 7, Some(Cid([1; 16])), 10, vec![0, 9])
        ]
    );
    assert_eq!(receiver.waiting_data().len(), 0);
}

#[test]
fn stops_have_their_number_and_values() {
    let mut receiver = Receiver::new();
    let long = [0; 514];
    let stop = |step: Result<Step, Stop>| step.map(|_| ()).unwrap_err();
    assert_eq!(
        receiver.listen_universes(&[1, 0, 64_000]),
        Err(Stop::IllegalUniverse(0))
    );
    assert_eq!(
        receiver.mute_universe(9),
        Err(Stop::UniverseNotRegistered(9))
    );
    assert_eq!(receiver.set_source_limit(Some(0)), Err(Stop::LimitZero));
    assert_eq!(
        receiver.settings().store(&mut [0; 13]),
        Err(Stop::TooShort(14))
    );
    assert_eq!(Settings::from_bytes(b"S"), Err(Stop::NoSettingsRecord));
    assert_eq!(
        Settings::from_bytes(b"ST\x03"),
        Err(Stop::UnreadableSettingsRecord)
    );
    receiver.listen_universes(&[1, 2]).unwrap();
    assert!(receiver.is_listening(2) && receiver.is_listening(64_214) && !receiver.is_listening(3));
    assert_eq!(
        stop(receiver.handle_data_packet(0, &packet(1, 1, 0, &long))),
        Stop::TooLong(514)
    );
    released(receiver.handle_data_packet(0, &packet(1, 1, 10, &[0])));
    let late = stop(receiver.handle_data_packet(0, &packet(1, 1, 247, &[0])));
    assert_eq!(
        late,
        Stop::OutOfSequence {
            arriving: 247,
            last: 10,
            difference: -19
        }
    );
    let repeated = stop(receiver.handle_data_packet(0, &packet(1, 1, 10, &[0])));
    assert_eq!(
        (repeated, repeated.number()),
        (
            Stop::Repeated {
                arriving: 10,
                last: 10,
                difference: 0
            },
            21
        )
    );
    receiver.set_source_limit(Some(1)).unwrap();
    assert_eq!(
        stop(receiver.handle_data_packet(0, &packet(2, 1, 0, &[0]))),
        Stop::SourcesExceeded(1)
    );
    receiver.set_source_limit(None).unwrap();
    receiver.set_announce_stream_termination(true);
    let last = DataPacket {
        terminated: true,
        ..packet(1, 1, 0, &[0])
    };
    assert_eq!(
        stop(receiver.handle_data_packet(0, &last)),
        Stop::UniverseTerminated(Cid([1; 16]), 1)
    );
    released(receiver.handle_data_packet(0, &packet(3, 2, 0, &[0])));
    receiver.set_announce_timeout(true);
    assert_eq!(receiver.poll(2499), Ok(()));
    assert_eq!(
        receiver.poll(2500),
        Err(Stop::UniverseTimeout(Cid([3; 16]), 2))
    );
    receiver.set_announce_source_discovery(true);
    let name = String::from("a desk");
    let page = DiscoveryPacket {
        cid: Cid([1; 16]),
        page: 0,
        last_page: 0,
        name: name.as_bytes(),
        universes: &[1, 2],
    };
    let discovered = receiver
        .handle_universe_discovery_packet(0, &page)
        .unwrap_err();
    drop(name);
    let name = b"a desk"[..].try_into().unwrap();
    assert_eq!(
        (discovered, discovered.number()),
        (Stop::SourceDiscovered(name), 9)
    );
}

#[test]
fn forgetting() {
    let mut receiver = Receiver::new();
    receiver.listen_universes(&[1]).unwrap();
    let waits = DataPacket {
        address: 7,
        ..packet(1, 1, 0, &[0])
    };
    released(receiver.handle_data_packet(0, &waits));
    assert!(receiver.clear_waiting_data(1) && !receiver.clear_waiting_data(1));
    assert_eq!(receiver.data_pairs().len(), 1);
    receiver.reset_pairs();
    assert_eq!(receiver.data_pairs().len(), 0);
    released(receiver.handle_data_packet(0, &waits));
    receiver.clear_all_waiting_data();
    assert_eq!(receiver.waiting_data().len(), 0);
}

#[test]
fn a_desk_is_restarted() {
    let mut receiver = Receiver::new();
    receiver.listen_universes(&[1, 7]).unwrap();
    let page = DiscoveryPacket {
        cid: Cid([1; 16]),
        page: 0,
        last_page: 0,
        name: b"a desk",
        universes: &[1],
    };
    receiver.handle_universe_discovery_packet(0, &page).unwrap();
    let sync = |sequence| SyncPacket {
        cid: Cid([1; 16]),
        address: 7,
        sequence,
    };
    assert_eq!(
        released(receiver.handle_data_packet(0, &packet(1, 1, 5, &[0]))).len(),
        1
    );
    assert!(released(receiver.handle_sync_packet(0, &sync(5))).is_empty());
    // By the numbering before the restart 5 is a repeat and 4 is late.
    for (sequence, number) in [(5, 21), (4, 7)] {
        let data = packet(1, 1, sequence, &[0]);
        let stop = |step: Result<Step, Stop>| step.map(|_| ()).unwrap_err().number();
        assert_eq!(stop(receiver.handle_data_packet(0, &data)), number);
        assert_eq!(
            stop(receiver.handle_sync_packet(0, &sync(sequence))),
            number
        );
        let mut anew = receiver.clone();
        anew.reset_pairs();
        assert_eq!(released(anew.handle_data_packet(0, &data)).len(), 1);
        assert!(released(anew.handle_sync_packet(0, &sync(sequence))).is_empty());
        let listed: Vec<_> = anew.listed_sources().map(|s| (s.cid, s.name)).collect();
        assert_eq!(listed, [(Cid([1; 16]), &b"a desk"[..])]);
    }
    // The source limit is counted anew, by who comes first.
    receiver.set_source_limit(Some(1)).unwrap();
    receiver.reset_pairs();
    assert_eq!(
        released(receiver.handle_data_packet(0, &packet(2, 1, 0, &[0]))).len(),
        1
    );
    assert_eq!(
        receiver
            .handle_data_packet(0, &packet(1, 1, 0, &[0]))
            .map(|_| ()),
        Err(Stop::SourcesExceeded(1))
    );
    // What is forgotten does not time out.
    receiver.set_announce_timeout(true);
    receiver.reset_pairs();
    assert_eq!(receiver.poll(2500), Ok(()));
}

fn announced(source: u8, page: u8, last_page: u8) -> DiscoveryPacket<'static> {
    DiscoveryPacket {
        cid: Cid([source; 16]),
        page,
        last_page,
        name: b"a desk",
        universes: &[1],
    }
}

/// How many sources are partial, and how many are listed.
fn discovered(receiver: &Receiver) -> (usize, usize) {
    (
        receiver.partial_sources().count(),
        receiver.listed_sources().count(),
    )
}

/// The discovery sweep comes every 5,000 ms, just before the announcement where both come together.
#[test]
fn a_source_that_announces_itself_every_10_seconds_stays_on_the_list() {
    let mut receiver = Receiver::new();
    let mut listed = |expiry: Option<u32>| {
        if let Some(expiry) = expiry {
            receiver.set_discovery_expiry(expiry).unwrap();
        }
        let mut seen = Vec::new();
        for now in (0..=60_000).step_by(5_000) {
            receiver.remove_expired_sources(now);
            seen.push(discovered(&receiver).1);
            // The last announcement is that of 30,000.
            if now % 10_000 == 0 && now <= 30_000 {
                let page = announced(1, 0, 0);
                receiver
                    .handle_universe_discovery_packet(now, &page)
                    .unwrap();
            }
        }
        seen
    };
    let stays = [0, 1, 1, 1, 1, 1, 1, 1, 1, 1, 0, 0, 0];
    assert_eq!(listed(None), stays);
    assert_eq!(listed(Some(2_500)), [0; 13]);
    assert_eq!(listed(Some(20_000)), stays);
}

/// One rule for both lists: a source stays one millisecond before its expiry, and goes at it.
#[test]
fn a_source_goes_at_its_expiry() {
    let mut fresh = Receiver::new();
    fresh
        .handle_universe_discovery_packet(1_000, &announced(1, 0, 0))
        .unwrap();
    fresh
        .handle_universe_discovery_packet(1_000, &announced(2, 1, 1))
        .unwrap();
    assert_eq!(discovered(&fresh), (1, 1));
    let swept = |expiry: Option<u32>, age: u64| {
        let mut receiver = fresh.clone();
        if let Some(expiry) = expiry {
            receiver.set_discovery_expiry(expiry).unwrap();
        }
        receiver.remove_expired_sources(1_000 + age);
        discovered(&receiver)
    };
    assert_eq!(swept(None, 19_999), (1, 1));
    assert_eq!(swept(None, 20_000), (0, 0));
    assert_eq!(swept(Some(2_500), 2_499), (1, 1));
    assert_eq!(swept(Some(2_500), 2_500), (0, 0));
    assert_eq!(swept(Some(60_000), 59_999), (1, 1));
    assert_eq!(swept(Some(60_000), 60_000), (0, 0));
    // An age of 33 bits, of which the lower 32 are zero.
    assert_eq!(swept(Some(60_000), 1 << 32), (0, 0));
    // A refused expiry leaves the one before it.
    let mut receiver = fresh.clone();
    assert_eq!(
        receiver.set_discovery_expiry(2_499),
        Err(Stop::ExpiryOutOfRange)
    );
    receiver.remove_expired_sources(1_000 + 19_999);
    assert_eq!(discovered(&receiver), (1, 1));
    // Each by its own reading: the next page of the partial source lists it, and it stays.
    receiver
        .handle_universe_discovery_packet(1_000 + 19_999, &announced(2, 0, 1))
        .unwrap();
    receiver.remove_expired_sources(1_000 + 20_000);
    let listed: Vec<_> = receiver.listed_sources().map(|s| s.cid).collect();
    assert_eq!(
        (discovered(&receiver), listed),
        ((0, 1), vec![Cid([2; 16])])
    );
}

/// The pair tables and the waiting data expire at 2,500, whatever the discovery expiry is; the poll drops no source, and the discovery sweep nothing else.
#[test]
fn pairs_and_waiting_data_keep_2500() {
    for (expiry, left) in [(2_500, (0, 0)), (20_000, (1, 1)), (60_000, (1, 1))] {
        let mut receiver = Receiver::new();
        receiver.set_discovery_expiry(expiry).unwrap();
        receiver.listen_universes(&[1, 2, 7]).unwrap();
        for page in [announced(1, 0, 0), announced(2, 1, 1)] {
            receiver.handle_universe_discovery_packet(0, &page).unwrap();
        }
        let waits = DataPacket {
            address: 7,
            ..packet(1, 2, 0, &[0])
        };
        let sync = SyncPacket {
            cid: Cid([1; 16]),
            address: 7,
            sequence: 0,
        };
        released(receiver.handle_data_packet(0, &packet(1, 1, 0, &[0])));
        released(receiver.handle_sync_packet(0, &sync));
        released(receiver.handle_data_packet(0, &waits));
        let held = |r: &Receiver| {
            (
                r.data_pairs().len(),
                r.sync_pairs().len(),
                r.waiting_data().len(),
            )
        };
        receiver.poll(2_499).unwrap();
        assert_eq!(
            (held(&receiver), discovered(&receiver)),
            ((2, 1, 1), (1, 1))
        );
        let mut swept = receiver.clone();
        swept.remove_expired_sources(2_500);
        assert_eq!((held(&swept), discovered(&swept)), ((2, 1, 1), left));
        receiver.poll(2_500).unwrap();
        assert_eq!(
            (held(&receiver), discovered(&receiver)),
            ((0, 0, 0), (1, 1))
        );
        // Announced, it is 4 at the same age.
        swept.set_announce_timeout(true);
        assert_eq!(swept.poll(2_499), Ok(()));
        assert_eq!(
            swept.poll(2_500),
            Err(Stop::UniverseTimeout(Cid([1; 16]), 1))
        );
    }
}

/// The next step goes by the settings that were read; what is refused leaves those before.
#[test]
fn settings_outlive_a_power_cycle() {
    let mut receiver = Receiver::new();
    receiver.set_source_limit(Some(1)).unwrap();
    receiver.set_announce_timeout(true);
    receiver.set_discovery_expiry(60_000).unwrap();
    let before = receiver.settings();
    let kept = before.to_bytes();

    let mut receiver = Receiver::new();
    receiver.listen_universes(&[1]).unwrap();
    assert_eq!(receiver.settings(), Settings::new());
    let mut load = |bytes: &[u8]| -> Result<(), Stop> {
        receiver.set_settings(Settings::from_bytes(bytes)?);
        Ok(())
    };
    load(&kept).unwrap();
    for byte in 0..kept.len() {
        let mut damaged = kept;
        damaged[byte] = 0xff;
        // Every number is a limit.
        if byte != 8 && byte != 9 {
            assert!(load(&damaged).is_err(), "{byte}");
        }
    }
    assert_eq!(load(&kept[..13]), Err(Stop::NoSettingsRecord));
    assert_eq!(receiver.settings(), before);

    assert_eq!(
        released(receiver.handle_data_packet(0, &packet(1, 1, 0, &[0]))).len(),
        1
    );
    assert_eq!(
        receiver
            .handle_data_packet(0, &packet(2, 1, 0, &[0]))
            .map(|_| ()),
        Err(Stop::SourcesExceeded(1))
    );
    assert_eq!(
        receiver.poll(2_500),
        Err(Stop::UniverseTimeout(Cid([1; 16]), 1))
    );
    receiver
        .handle_universe_discovery_packet(0, &announced(1, 0, 0))
        .unwrap();
    receiver.remove_expired_sources(59_999);
    assert_eq!(discovered(&receiver), (0, 1));
    receiver.remove_expired_sources(60_000);
    assert_eq!(discovered(&receiver), (0, 0));
}
