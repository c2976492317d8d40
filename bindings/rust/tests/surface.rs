//! What a user's program sees of the crate: errors, texts, clones, settings, traits.

use std::alloc::{GlobalAlloc, Layout, System};
use std::cell::Cell;
use std::collections::HashSet;
use std::error::Error;
use tamburelvi::{
    Cid, DataPacket, DiscoveryPacket, Merge, Name, Page, ParseCidError, Receiver, Settings, Step,
    Stop, SyncPacket,
};

fn data(source: u8, universe: u16, sequence: u8) -> DataPacket<'static> {
    DataPacket::new(Cid([source; 16]), universe, sequence, &[0, 7])
}

fn waits(source: u8, universe: u16, sequence: u8) -> DataPacket<'static> {
    DataPacket {
        address: 7,
        ..data(source, universe, sequence)
    }
}

const SYNC: SyncPacket = SyncPacket {
    cid: Cid([1; 16]),
    address: 7,
    sequence: 0,
};

fn page(source: u8, page: u8, last_page: u8) -> DiscoveryPacket<'static> {
    DiscoveryPacket {
        cid: Cid([source; 16]),
        page,
        last_page,
        name: b"a desk",
        universes: &[1, 2],
    }
}

fn listening(universes: impl IntoIterator<Item = u16>) -> Receiver {
    let mut receiver = Receiver::new();
    let all: Vec<u16> = universes.into_iter().collect();
    receiver.listen_universes(&all).unwrap();
    receiver
}

fn stop(step: Result<Step, Stop>) -> Stop {
    step.map(|_| ()).unwrap_err()
}

/// Both pair tables, both lists of discovered sources, and the rest of the state, by every read-out.
fn parts(r: &Receiver) -> [String; 3] {
    let sources = |all: &mut dyn Iterator<Item = tamburelvi::Source>| {
        all.map(|s| {
            (
                format!("{s:?}"),
                format!("{:?}", s.pages().collect::<Vec<Page>>()),
            )
        })
        .collect::<Vec<_>>()
    };
    [
        format!(
            "{:?} {:?} {:?} {:?}",
            r.data_pairs().collect::<Vec<_>>(),
            r.data_sources().collect::<Vec<_>>(),
            r.sync_pairs().collect::<Vec<_>>(),
            r.sync_sources().collect::<Vec<_>>(),
        ),
        format!(
            "{:?} {:?}",
            sources(&mut r.partial_sources()),
            sources(&mut r.listed_sources()),
        ),
        format!(
            "{:?} {:?}",
            r.listened_universes().collect::<Vec<_>>(),
            r.waiting_data().collect::<Vec<_>>(),
        ),
    ]
}

/// The whole state, by every read-out.
fn read(r: &Receiver) -> String {
    format!("{r:?} {:?}", parts(r))
}

// `?` in a function that returns a boxed error, for every call that can stop. What the discovery call is lent does not outlive its block.

fn with_data(r: &mut Receiver, packet: &DataPacket) -> Result<(), Box<dyn core::error::Error>> {
    let _ = r.handle_data_packet(0, packet)?;
    Ok(())
}

fn with_sync(r: &mut Receiver, packet: &SyncPacket) -> Result<(), Box<dyn core::error::Error>> {
    let _ = r.handle_sync_packet(0, packet)?;
    Ok(())
}

fn with_discovery(r: &mut Receiver) -> Result<(), Box<dyn core::error::Error>> {
    let (name, universes) = (String::from("a desk"), vec![1, 2]);
    r.handle_universe_discovery_packet(
        0,
        &DiscoveryPacket {
            name: name.as_bytes(),
            universes: &universes,
            ..page(1, 0, 0)
        },
    )?;
    Ok(())
}

fn with_poll(r: &mut Receiver) -> Result<(), Box<dyn core::error::Error + Send + Sync>> {
    r.poll(2500)?;
    Ok(())
}

fn with_listen(r: &mut Receiver) -> Result<(), Box<dyn core::error::Error>> {
    r.listen_universes(&[64_000])?;
    Ok(())
}

fn with_mute(r: &mut Receiver) -> Result<(), Box<dyn core::error::Error>> {
    r.mute_universe(9)?;
    Ok(())
}

fn with_limit(r: &mut Receiver) -> Result<(), Box<dyn core::error::Error>> {
    r.set_source_limit(Some(0))?;
    Ok(())
}

fn with_expiry(r: &mut Receiver) -> Result<(), Box<dyn core::error::Error>> {
    r.set_discovery_expiry(60_001)?;
    Ok(())
}

fn with_store(r: &mut Receiver) -> Result<(), Box<dyn core::error::Error>> {
    r.settings().store(&mut [])?;
    Ok(())
}

fn with_record(r: &mut Receiver, bytes: &[u8]) -> Result<(), Box<dyn core::error::Error>> {
    r.set_settings(Settings::from_bytes(bytes)?);
    Ok(())
}

fn with_layout_1(r: &mut Receiver, bytes: &[u8]) -> Result<(), Box<dyn core::error::Error>> {
    r.set_settings(Settings::from_bytes_layout_1(bytes)?);
    Ok(())
}

fn with_text(text: &str) -> Result<Cid, Box<dyn core::error::Error>> {
    Ok(text.parse()?)
}

#[test]
fn the_question_mark_works_for_every_call() {
    let mut r = listening([1, 7]);
    r.set_announce_source_discovery(true);
    r.set_announce_timeout(true);
    with_data(&mut r, &data(1, 1, 5)).unwrap();
    with_sync(&mut r, &SYNC).unwrap();
    let said = |result: Result<(), Box<dyn Error>>| {
        let error = result.unwrap_err();
        let number = error.downcast_ref::<Stop>().expect("a stop").number();
        (number, error.to_string())
    };
    assert_eq!(
        said(with_data(&mut r, &data(1, 1, 5))),
        (
            21,
            "sequence number 5 is a repeat: it is the last one accepted (number 21)".into()
        )
    );
    assert_eq!(
        said(with_data(&mut r, &data(1, 1, 4))),
        (
            7,
            "sequence number 4 is late after 5: the difference is -1 (number 7)".into()
        )
    );
    assert_eq!(
        said(with_sync(&mut r, &SYNC)),
        (
            21,
            "sequence number 0 is a repeat: it is the last one accepted (number 21)".into()
        )
    );
    assert_eq!(
        said(with_discovery(&mut r)),
        (9, "source \"a desk\" is discovered (number 9)".into())
    );
    assert_eq!(
        with_poll(&mut r).unwrap_err().to_string(),
        "source 01010101010101010101010101010101 timed out on universe 1 (number 4)"
    );
    assert_eq!(
        said(with_listen(&mut r)),
        (2, "universe 64000 is illegal (number 2)".into())
    );
    assert_eq!(
        said(with_mute(&mut r)),
        (
            3,
            "universe 9 cannot be muted: it is not listened to (number 3)".into()
        )
    );
    assert_eq!(
        said(with_limit(&mut r)),
        (14, "the source limit cannot be 0 (number 14)".into())
    );
    assert_eq!(
        said(with_expiry(&mut r)),
        (
            20,
            "the discovery expiry must be 2500 to 60000 milliseconds (number 20)".into()
        )
    );
    assert_eq!(
        said(with_store(&mut r)),
        (
            15,
            "the lent memory is too short: 14 bytes are needed (number 15)".into()
        )
    );
    assert_eq!(
        said(with_record(&mut r, &[])),
        (22, "the bytes are no settings record (number 22)".into())
    );
    let kept = r.settings().to_bytes();
    assert_eq!(
        said(with_layout_1(&mut r, &kept)),
        (
            23,
            "the settings record has an unknown layout or a field out of range (number 23)".into()
        )
    );
    with_record(&mut r, &kept).unwrap();
    assert_eq!(
        with_text("11").unwrap_err().to_string(),
        "a CID is 32 hexadecimal digits, plain or with the hyphens of a UUID"
    );
}

#[test]
fn every_stop_is_a_sentence_with_its_number() {
    let cid = Cid([0xab; 16]);
    let name = Name::try_from(&b"a desk"[..]).unwrap();
    let late = Stop::OutOfSequence {
        arriving: 247,
        last: 10,
        difference: -19,
    };
    let repeated = Stop::Repeated {
        arriving: 10,
        last: 10,
        difference: 0,
    };
    let all = [
        (
            Stop::TooLong(514),
            "a part of the packet is too long: its length is 514 (number 1)",
        ),
        (Stop::IllegalUniverse(0), "universe 0 is illegal (number 2)"),
        (
            Stop::UniverseNotRegistered(9),
            "universe 9 cannot be muted: it is not listened to (number 3)",
        ),
        (
            Stop::UniverseTimeout(cid, 2),
            "source abababababababababababababababab timed out on universe 2 (number 4)",
        ),
        (
            Stop::UniverseTerminated(cid, 2),
            "source abababababababababababababababab ended its stream on universe 2 (number 5)",
        ),
        (
            Stop::SourcesExceeded(3),
            "the source limit is reached: 3 sources (number 6)",
        ),
        (
            late,
            "sequence number 247 is late after 10: the difference is -19 (number 7)",
        ),
        (
            Stop::DmxMergeError,
            "the merge with the waiting data is refused (number 8)",
        ),
        (
            Stop::SourceDiscovered(name),
            "source \"a desk\" is discovered (number 9)",
        ),
        (
            Stop::PairsFull,
            "the table is full: 1024 pairs of source and universe (number 10)",
        ),
        (
            Stop::ListenedFull,
            "more than 1024 universes would be listened to (number 11)",
        ),
        (
            Stop::WaitingFull,
            "the waiting data is full: 64 universes (number 12)",
        ),
        (
            Stop::PagesFull,
            "the discovered sources are full: 64 pages (number 13)",
        ),
        (Stop::LimitZero, "the source limit cannot be 0 (number 14)"),
        (
            Stop::TooShort(35_072),
            "the lent memory is too short: 35072 bytes are needed (number 15)",
        ),
        (
            Stop::ExpiryOutOfRange,
            "the discovery expiry must be 2500 to 60000 milliseconds (number 20)",
        ),
        (
            repeated,
            "sequence number 10 is a repeat: it is the last one accepted (number 21)",
        ),
        (
            Stop::NoSettingsRecord,
            "the bytes are no settings record (number 22)",
        ),
        (
            Stop::UnreadableSettingsRecord,
            "the settings record has an unknown layout or a field out of range (number 23)",
        ),
    ];
    for (stop, text) in all {
        assert_eq!(stop.to_string(), text);
    }
    let numbers = all.map(|(stop, _)| stop.number());
    assert!(
        numbers.into_iter().eq((1..=15).chain(20..=23)),
        "{numbers:?}"
    );
    assert_eq!(
        Stop::SourcesExceeded(1).to_string(),
        "the source limit is reached: 1 source (number 6)"
    );
    assert_eq!(
        format!("{:?}", Stop::SourceDiscovered(name)),
        "SourceDiscovered(\"a desk\")"
    );
}

/// 1 to 15 and 20 to 23, through the library.
#[test]
fn every_number_that_can_be_given_is_given() {
    // 1, in the order name, list
    let mut r = listening([1]);
    let long = DataPacket {
        values: &[0; 514],
        ..data(1, 1, 0)
    };
    assert_eq!(stop(r.handle_data_packet(0, &long)), Stop::TooLong(514));
    let long = DiscoveryPacket {
        name: &[b'a'; 64],
        universes: &[1; 513],
        ..page(1, 0, 0)
    };
    assert_eq!(
        r.handle_universe_discovery_packet(0, &long),
        Err(Stop::TooLong(64))
    );
    let long = DiscoveryPacket {
        name: &[b'a'; 63],
        ..long
    };
    assert_eq!(
        r.handle_universe_discovery_packet(0, &long),
        Err(Stop::TooLong(513))
    );
    // 2 by a call and by an address, 3, 14, 20
    assert_eq!(
        r.listen_universes(&[5, 64_213, 0]),
        Err(Stop::IllegalUniverse(64_213))
    );
    let far = DataPacket {
        address: 64_000,
        ..data(1, 1, 0)
    };
    assert_eq!(
        stop(r.handle_data_packet(0, &far)),
        Stop::IllegalUniverse(64_000)
    );
    assert_eq!(r.mute_universe(0), Err(Stop::IllegalUniverse(0)));
    assert_eq!(r.mute_universe(5), Err(Stop::UniverseNotRegistered(5)));
    assert_eq!(r.set_source_limit(Some(0)), Err(Stop::LimitZero));
    assert_eq!(r.set_discovery_expiry(0), Err(Stop::ExpiryOutOfRange));
    // 15, 22, 23
    assert_eq!(r.settings().store(&mut [0; 13]), Err(Stop::TooShort(14)));
    let kept = r.settings().to_bytes();
    assert_eq!(
        Settings::from_bytes(&kept[..13]),
        Err(Stop::NoSettingsRecord)
    );
    assert_eq!(
        Settings::from_bytes_layout_1(&kept),
        Err(Stop::UnreadableSettingsRecord)
    );
    // 21, 7 at both ends, which change nothing; 6
    let repeated = Stop::Repeated {
        arriving: 0,
        last: 0,
        difference: 0,
    };
    let late = |arriving, difference| Stop::OutOfSequence {
        arriving,
        last: 0,
        difference,
    };
    let before = read(&r);
    assert_eq!(stop(r.handle_data_packet(9, &data(1, 1, 0))), repeated);
    assert_eq!(
        stop(r.handle_data_packet(9, &data(1, 1, 255))),
        late(255, -1)
    );
    assert_eq!(
        stop(r.handle_data_packet(9, &data(1, 1, 237))),
        late(237, -19)
    );
    assert_eq!(read(&r), before);
    r.set_source_limit(Some(1)).unwrap();
    assert_eq!(
        stop(r.handle_data_packet(0, &data(2, 1, 0))),
        Stop::SourcesExceeded(1)
    );
    // 5, 4
    r.set_announce_stream_termination(true);
    let end = DataPacket {
        terminated: true,
        ..data(1, 1, 0)
    };
    assert_eq!(
        stop(r.handle_data_packet(0, &end)),
        Stop::UniverseTerminated(Cid([1; 16]), 1)
    );
    r.set_announce_timeout(true);
    let _ = r.handle_data_packet(0, &data(1, 1, 0)).unwrap();
    assert_eq!(
        stop(r.handle_sync_packet(2500, &SYNC)),
        Stop::UniverseTimeout(Cid([1; 16]), 1)
    );
    // 21, 7 of synchronisation, which change nothing: what only repeats itself expires
    let mut r = listening([7]);
    let _ = r.handle_sync_packet(0, &SYNC).unwrap();
    let before = read(&r);
    assert_eq!(stop(r.handle_sync_packet(2499, &SYNC)), repeated);
    let older = SyncPacket {
        sequence: 255,
        ..SYNC
    };
    assert_eq!(stop(r.handle_sync_packet(2499, &older)), late(255, -1));
    assert_eq!(read(&r), before);
    r.poll(2500).unwrap();
    assert_eq!(r.sync_pairs().len(), 0);
    // 8
    let mut r = listening([1]);
    r.set_merge(Merge::HtpDmxMerge);
    let _ = r.handle_data_packet(0, &waits(1, 1, 0)).unwrap();
    let other = DataPacket {
        values: &[1, 7],
        ..waits(1, 1, 1)
    };
    assert_eq!(stop(r.handle_data_packet(0, &other)), Stop::DmxMergeError);
    // 9, 13
    r.set_announce_source_discovery(true);
    let name = Name::try_from(&b"a desk"[..]).unwrap();
    assert_eq!(
        r.handle_universe_discovery_packet(0, &page(1, 0, 0)),
        Err(Stop::SourceDiscovered(name))
    );
    for source in 2..65 {
        assert_eq!(
            r.handle_universe_discovery_packet(0, &page(source, 0, 1)),
            Ok(())
        );
    }
    assert_eq!(
        r.handle_universe_discovery_packet(0, &page(65, 0, 1)),
        Err(Stop::PagesFull)
    );
    r.reset_discovery();
    assert_eq!(
        r.handle_universe_discovery_packet(0, &page(65, 0, 1)),
        Ok(())
    );
    // 12
    let mut r = listening(1..=65);
    for universe in 1..=64 {
        let _ = r.handle_data_packet(0, &waits(1, universe, 0)).unwrap();
    }
    assert_eq!(
        stop(r.handle_data_packet(0, &waits(1, 65, 0))),
        Stop::WaitingFull
    );
    // 11 by a call and by an address, 10
    let mut r = listening(1..=1023);
    assert_eq!(r.listen_universes(&[2000]), Err(Stop::ListenedFull));
    let more = DataPacket {
        address: 2000,
        ..data(1, 1, 0)
    };
    assert_eq!(stop(r.handle_data_packet(0, &more)), Stop::ListenedFull);
    for universe in 2..=1023 {
        let _ = r.handle_data_packet(0, &data(1, universe, 0)).unwrap();
    }
    let _ = r.handle_data_packet(0, &data(2, 1, 0)).unwrap();
    assert_eq!(
        stop(r.handle_data_packet(0, &data(2, 2, 0))),
        Stop::PairsFull
    );
}

#[test]
fn a_clone_is_a_receiver_of_its_own() {
    let mut first = listening([1, 2]);
    first.set_announce_timeout(true);
    first.set_source_limit(Some(9)).unwrap();
    first.set_discovery_expiry(30_000).unwrap();
    let _ = first.handle_data_packet(10, &data(1, 1, 0)).unwrap();
    let _ = first.handle_data_packet(10, &waits(1, 2, 0)).unwrap();
    let _ = first
        .handle_sync_packet(10, &SyncPacket { address: 1, ..SYNC })
        .unwrap();
    first
        .handle_universe_discovery_packet(10, &page(3, 0, 0))
        .unwrap();
    first
        .handle_universe_discovery_packet(10, &page(4, 1, 1))
        .unwrap();
    let mut second = first.clone();
    let before = read(&first);
    assert_eq!(read(&second), before);

    // Everything that the clone can change, and the first has it as before.
    let Ok(Step::Released(records)) = second.handle_sync_packet(20, &SYNC) else {
        panic!("universe 2 waits");
    };
    assert_eq!(records.count(), 1);
    let _ = second.handle_data_packet(20, &data(2, 1, 0)).unwrap();
    second
        .handle_universe_discovery_packet(20, &page(4, 0, 1))
        .unwrap();
    second.listen_universes(&[5]).unwrap();
    second.set_merge(Merge::HtpDmxMerge);
    second.set_discovery_expiry(2_500).unwrap();
    assert_eq!(read(&first), before);
    assert_ne!(read(&second), before);
    assert_eq!(
        (first.discovery_expiry(), second.discovery_expiry()),
        (30_000, 2_500)
    );

    // And the other way round; the first still does what it would have done.
    let after = read(&second);
    let Ok(Step::Released(records)) = first.handle_sync_packet(20, &SYNC) else {
        panic!("universe 2 waits in the first too");
    };
    assert_eq!(records.map(|r| r.universe).collect::<Vec<_>>(), [2]);
    first.reset_sources();
    first.clear_all_waiting_data();
    assert_eq!(read(&second), after);
    drop(first);
    assert_eq!(read(&second), after);

    let mut third = Receiver::new();
    third.clone_from(&second);
    assert_eq!(read(&third), after);
}

/// Each half of `reset_sources` leaves all that the other clears; what waits and what is listened to stays.
#[test]
fn each_half_leaves_what_the_other_clears() {
    let mut all = listening([1, 7]);
    let [no_pairs, no_sources, none_waits] = parts(&all);
    let _ = all.handle_data_packet(10, &data(1, 1, 5)).unwrap();
    let _ = all.handle_sync_packet(10, &SYNC).unwrap();
    let _ = all.handle_data_packet(10, &waits(2, 7, 9)).unwrap();
    for page in [page(3, 0, 0), page(4, 1, 1)] {
        all.handle_universe_discovery_packet(10, &page).unwrap();
    }
    let [pairs, sources, rest] = parts(&all);
    assert!(pairs != no_pairs && sources != no_sources && rest != none_waits);

    let (mut one, mut other, mut whole) = (all.clone(), all.clone(), all);
    one.reset_pairs();
    assert_eq!(parts(&one), [&no_pairs[..], &sources, &rest]);
    other.reset_discovery();
    assert_eq!(parts(&other), [&pairs[..], &no_sources, &rest]);
    whole.reset_sources();
    assert_eq!(parts(&whole), [&no_pairs[..], &no_sources, &rest]);

    // The numbering stands where the sources alone were forgotten, and they are listed anew.
    let mut listed = other.clone();
    assert_eq!(
        stop(listed.handle_data_packet(10, &data(1, 1, 5))).number(),
        21
    );
    assert_eq!(stop(listed.handle_sync_packet(10, &SYNC)).number(), 21);
    listed
        .handle_universe_discovery_packet(10, &page(4, 0, 0))
        .unwrap();
    assert_eq!(listed.listed_sources().count(), 1);

    // Both, in either order, are the whole.
    one.reset_discovery();
    other.reset_pairs();
    assert_eq!([read(&one), read(&other)], [read(&whole), read(&whole)]);
}

/// Every setter changes its own setting and leaves the others; a refused one leaves all.
#[test]
fn every_setting_can_be_read() {
    let mut r = Receiver::new();
    let all = |r: &Receiver| {
        (
            [
                r.process_preview_data(),
                r.announce_source_discovery(),
                r.announce_stream_termination(),
                r.announce_timeout(),
            ],
            r.merge(),
            r.source_limit(),
            r.discovery_expiry(),
        )
    };
    let by_priority = Merge::DiscardLowestPriorityThenPrevious;
    let by_value = Merge::HtpDmxMerge;
    assert_eq!(all(&r), ([false; 4], by_priority, None, 20_000));
    r.set_discovery_expiry(60_000).unwrap();
    assert_eq!(all(&r), ([false; 4], by_priority, None, 60_000));
    r.set_process_preview_data(true);
    assert_eq!(
        all(&r),
        ([true, false, false, false], by_priority, None, 60_000)
    );
    r.set_announce_source_discovery(true);
    assert_eq!(
        all(&r),
        ([true, true, false, false], by_priority, None, 60_000)
    );
    r.set_announce_stream_termination(true);
    assert_eq!(
        all(&r),
        ([true, true, true, false], by_priority, None, 60_000)
    );
    r.set_announce_timeout(true);
    assert_eq!(all(&r), ([true; 4], by_priority, None, 60_000));
    r.set_merge(by_value);
    assert_eq!(all(&r), ([true; 4], by_value, None, 60_000));
    r.set_source_limit(Some(65_535)).unwrap();
    assert_eq!(all(&r), ([true; 4], by_value, Some(65_535), 60_000));
    assert_eq!(r.set_source_limit(Some(0)), Err(Stop::LimitZero));
    assert_eq!(all(&r), ([true; 4], by_value, Some(65_535), 60_000));
    // Both ends of the range, the numbers beside them, 2,500 with 65,536 more, and both ends of 32 bits.
    for (expiry, taken) in [
        (2_500, true),
        (2_499, false),
        (60_000, true),
        (60_001, false),
        (2_501, true),
        (0, false),
        (68_036, false),
        (u32::MAX, false),
    ] {
        let before = (r.discovery_expiry(), format!("{r:?}"));
        if taken {
            assert_eq!(r.set_discovery_expiry(expiry), Ok(()), "{expiry}");
            assert_eq!(all(&r), ([true; 4], by_value, Some(65_535), expiry));
        } else {
            let refused = r.set_discovery_expiry(expiry);
            assert_eq!(refused, Err(Stop::ExpiryOutOfRange), "{expiry}");
            assert_eq!(all(&r), ([true; 4], by_value, Some(65_535), before.0));
            assert_eq!(format!("{r:?}"), before.1);
        }
    }
    r.set_source_limit(None).unwrap();
    r.set_merge(by_priority);
    r.set_process_preview_data(false);
    assert_eq!(
        all(&r),
        ([false, true, true, true], by_priority, None, 2_501)
    );
    // All at once, and a copy of its own.
    let mut kept = r.settings();
    let mut other = Receiver::new();
    other.set_settings(kept);
    assert_eq!(all(&other), all(&r));
    kept.set_merge(by_value);
    assert_eq!(
        (r.merge(), other.merge(), kept.merge()),
        (by_priority, by_priority, by_value)
    );
}

#[test]
fn settings_are_a_value() {
    let fresh = Settings::default();
    assert_eq!(
        (fresh, Receiver::new().settings()),
        (Settings::new(), fresh)
    );
    let mut s = fresh;
    s.set_source_limit(Some(3)).unwrap();
    assert_ne!(s, fresh);
    assert_eq!(HashSet::from([s, fresh, s]).len(), 2);
    assert_eq!(
        format!("{s:?}"),
        "Settings { process_preview_data: false, announce_source_discovery: false, announce_stream_termination: false, announce_timeout: false, \
         merge: DiscardLowestPriorityThenPrevious, source_limit: Some(3), discovery_expiry: 20000 }"
    );
    assert_eq!(s.set_source_limit(Some(0)), Err(Stop::LimitZero));
    assert_eq!(s.set_discovery_expiry(2_499), Err(Stop::ExpiryOutOfRange));
    assert_eq!((s.source_limit(), s.discovery_expiry()), (Some(3), 20_000));
    s.set_source_limit(None).unwrap();
    assert_eq!(s, fresh);
}

#[test]
fn debug_is_short() {
    let mut r = listening([1]);
    let _ = r.handle_data_packet(0, &data(1, 1, 0)).unwrap();
    r.set_source_limit(Some(3)).unwrap();
    assert_eq!(
        format!("{r:?}"),
        "Receiver { data_pairs: 1, data_sources: 1, sync_pairs: 0, sync_sources: 0, waiting_data: 0, listened_universes: 2, discovered_sources: 0, \
         discovery_pages: 0, process_preview_data: false, announce_source_discovery: false, announce_stream_termination: false, announce_timeout: false, \
         merge: DiscardLowestPriorityThenPrevious, source_limit: Some(3), discovery_expiry: 20000, .. }"
    );
    let step = r.handle_data_packet(0, &data(1, 1, 1)).unwrap();
    assert_eq!(
        format!("{step:?}"),
        "Released([Record { universe: 1, address: 0, priority: 100, preview: false, cid: Some(Cid(01010101010101010101010101010101)), reading: 0, \
         values: [0, 7] }])"
    );
    r.handle_universe_discovery_packet(5, &page(1, 0, 0))
        .unwrap();
    assert_eq!(
        format!("{:?}", r.listed_sources().next().unwrap()),
        "Source { cid: Cid(01010101010101010101010101010101), name: \"a desk\", last_page: 0, reading: 5, .. }"
    );
}

#[test]
fn a_cid_as_text() {
    let bytes: [u8; 16] = std::array::from_fn(|i| i as u8 * 17);
    let cid = Cid::from(bytes);
    let (plain, hyphens) = (
        "00112233445566778899aabbccddeeff",
        "00112233-4455-6677-8899-aabbccddeeff",
    );
    assert_eq!(
        (cid.to_string().as_str(), format!("{cid:#}").as_str()),
        (plain, hyphens)
    );
    assert_eq!(format!("{cid:?}"), format!("Cid({plain})"));
    for text in [
        plain,
        hyphens,
        &plain.to_uppercase(),
        &hyphens.to_uppercase(),
    ] {
        assert_eq!(text.parse(), Ok(cid), "{text}");
    }
    assert_eq!(<[u8; 16]>::from(cid), bytes);
    for text in [
        "",
        "0",
        &plain[1..],
        &format!("{plain}0"),
        &hyphens[1..],
        &format!("{hyphens}0"),
        "0011223344556677-8899aabbccddeeff",
        "0011223-34455-6677-8899-aabbccddeeff",
        "+0112233445566778899aabbccddeeff",
        "0011223344556677 8899aabbccddeef",
        "g0112233445566778899aabbccddeeff",
        "éé112233445566778899aabbccddee",
        "00112233445566778899aabbccddeeff----",
    ] {
        let error: ParseCidError = text.parse::<Cid>().unwrap_err();
        assert!(
            error
                .to_string()
                .starts_with("a CID is 32 hexadecimal digits"),
            "{text}"
        );
    }
    // Ascending as byte strings: the first byte that differs decides.
    let mut later = [0; 16];
    later[0] = 1;
    let mut earlier = [255; 16];
    earlier[0] = 0;
    assert!(Cid(earlier) < Cid(later));
}

#[test]
fn a_name_as_text() {
    let shown = |bytes: &[u8]| {
        let name = Name::try_from(bytes).unwrap();
        assert_eq!(name.as_bytes(), bytes);
        (name.to_string(), format!("{name:?}"))
    };
    let both = |display: &str, debug: &str| (display.to_string(), debug.to_string());
    assert_eq!(shown(b""), both("", "\"\""));
    assert_eq!(
        shown("Pult Süd".as_bytes()),
        both("Pult Süd", "\"Pult Süd\"")
    );
    assert_eq!(
        shown(b"Tom's \"desk\""),
        both("Tom's \"desk\"", "\"Tom's \\\"desk\\\"\"")
    );
    assert_eq!(
        shown(b"\x1b[2J\xff\n"),
        both("\\u{1b}[2J\\xff\\n", "\"\\u{1b}[2J\\xff\\n\"")
    );
    assert_eq!(
        Name::try_from(&[b'a'; 63][..]).unwrap().as_bytes().len(),
        63
    );
    assert_eq!(Name::try_from(&[b'a'; 64][..]), Err(Stop::TooLong(64)));
}

#[test]
fn receivers_and_stops_go_between_threads() {
    fn goes<T: Send + Sync + 'static>() {}
    goes::<Receiver>();
    goes::<Settings>();
    goes::<Stop>();
    goes::<Cid>();
    let mut receiver = listening([1]);
    let thread = std::thread::Builder::new()
        // Less than the memory: making and cloning a receiver puts none of it on the stack.
        .stack_size(64 * 1024)
        .spawn(move || {
            let mut clone = receiver.clone();
            let _ = Receiver::new();
            let again = receiver.handle_data_packet(0, &data(1, 1, 0)).is_ok();
            clone.clone_from(&receiver);
            (again, clone.data_pairs().len())
        });
    assert_eq!(thread.unwrap().join().unwrap(), (true, 1));
}

// Counts what this thread takes from the heap.
struct Counting;

thread_local! {
    static TAKEN: Cell<usize> = const { Cell::new(0) };
}

// SAFETY: it is the system's allocator with a count beside it.
unsafe impl GlobalAlloc for Counting {
    unsafe fn alloc(&self, layout: Layout) -> *mut u8 {
        TAKEN.with(|t| t.set(t.get() + 1));
        // SAFETY: the caller keeps what the system's allocator asks for.
        unsafe { System.alloc(layout) }
    }

    unsafe fn dealloc(&self, pointer: *mut u8, layout: Layout) {
        // SAFETY: the caller keeps what the system's allocator asks for.
        unsafe { System.dealloc(pointer, layout) }
    }
}

#[global_allocator]
static COUNTING: Counting = Counting;

#[test]
fn only_making_and_cloning_takes_memory() {
    let taken = || TAKEN.with(Cell::get);
    let start = taken();
    let mut r = Receiver::new();
    assert_eq!(taken() - start, 1);
    let mut clone = r.clone();
    assert_eq!(taken() - start, 2);
    clone.clone_from(&r);
    r.set_announce_source_discovery(true);
    r.listen_universes(&[1]).unwrap();
    let _ = r.handle_data_packet(0, &waits(1, 1, 0)).unwrap();
    let _ = r.handle_sync_packet(0, &SYNC).unwrap();
    assert!(
        r.handle_universe_discovery_packet(0, &page(1, 0, 0))
            .is_err()
    );
    assert_eq!(stop(r.handle_data_packet(0, &waits(1, 1, 0))).number(), 21);
    assert_eq!(r.listed_sources().flat_map(|s| s.pages()).count(), 1);
    assert_eq!(r.set_discovery_expiry(0), Err(Stop::ExpiryOutOfRange));
    let kept = r.settings().to_bytes();
    r.set_settings(Settings::from_bytes(&kept).unwrap());
    assert!(Settings::from_bytes_layout_1(&kept).is_err());
    r.poll(20_000).unwrap();
    r.remove_expired_sources(20_000);
    assert_eq!((r.data_pairs().len(), r.listed_sources().count()), (0, 0));
    assert_eq!(taken() - start, 2);
}
