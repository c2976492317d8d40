//! Settings records, held to a writer and a reader that are written here from document 02, F-6.

use tamburelvi::{Merge, Settings, Stop};

/// Preview and the three announcements, whether merging is by highest value, the limit or 0, the expiry.
type Fields = ([bool; 4], bool, u16, u32);

fn fields(s: &Settings) -> Fields {
    let flags = [
        s.process_preview_data(),
        s.announce_source_discovery(),
        s.announce_stream_termination(),
        s.announce_timeout(),
    ];
    let limit = s.source_limit().unwrap_or(0);
    (
        flags,
        s.merge() == Merge::HtpDmxMerge,
        limit,
        s.discovery_expiry(),
    )
}

/// By the setters.
fn settings((flags, highest, limit, expiry): Fields) -> Settings {
    let mut s = Settings::new();
    s.set_process_preview_data(flags[0]);
    s.set_announce_source_discovery(flags[1]);
    s.set_announce_stream_termination(flags[2]);
    s.set_announce_timeout(flags[3]);
    s.set_merge(if highest {
        Merge::HtpDmxMerge
    } else {
        Merge::DiscardLowestPriorityThenPrevious
    });
    s.set_source_limit((limit > 0).then_some(limit)).unwrap();
    s.set_discovery_expiry(expiry).unwrap();
    s
}

fn written((flags, highest, limit, expiry): Fields) -> Vec<u8> {
    let mut bytes = vec![0x53, 0x54, 2];
    bytes.extend(flags.map(u8::from));
    bytes.push(highest.into());
    bytes.extend([(limit / 256) as u8, (limit % 256) as u8]);
    bytes.extend([24, 16, 8, 0].map(|bits| (expiry >> bits) as u8));
    bytes
}

/// By a reader that knows the layouts up to `newest`: the fields or the number.
fn read(bytes: &[u8], newest: u8) -> Result<Fields, u8> {
    let [first, second, layout, fields @ ..] = bytes else {
        return Err(22);
    };
    if (*first, *second) != (0x53, 0x54) {
        return Err(22);
    }
    if *layout == 0 || *layout > newest {
        return Err(23);
    }
    if fields.len() < if *layout == 1 { 7 } else { 11 } {
        return Err(22);
    }
    let number = |bytes: &[u8]| bytes.iter().fold(0, |n, b| n * 256 + u64::from(*b));
    let expiry = if *layout == 1 {
        20_000
    } else {
        number(&fields[7..11])
    };
    if fields[..5].iter().any(|b| *b > 1) || !(2_500..=60_000).contains(&expiry) {
        return Err(23);
    }
    let on = |i: usize| fields[i] == 1;
    Ok((
        [on(0), on(1), on(2), on(3)],
        on(4),
        number(&fields[5..7]) as u16,
        expiry as u32,
    ))
}

/// Both readers give what the one here gives; and what they take and write again is the same record, but for the layout and what stands behind it.
fn hold(bytes: &[u8]) {
    let both = [
        (Settings::from_bytes(bytes), 2),
        (Settings::from_bytes_layout_1(bytes), 1),
    ];
    for (given, newest) in both {
        let said = given.map(|s| fields(&s)).map_err(|stop| stop.number());
        assert_eq!(said, read(bytes, newest), "{bytes:02x?}, {newest}");
        if let Ok(s) = given {
            let again = s.to_bytes();
            let end = if bytes[2] == 1 { 10 } else { 14 };
            assert_eq!(again[2], 2);
            assert_eq!(
                (&again[..2], &again[3..end]),
                (&bytes[..2], &bytes[3..end]),
                "{bytes:02x?}"
            );
        }
    }
}

/// A record of each layout, with four bytes behind it.
fn records() -> [Vec<u8>; 2] {
    [
        vec![0x53, 0x54, 1, 1, 0, 1, 0, 1, 0xff, 0xfe, 0, 0, 0xab, 0xcd],
        vec![
            0x53, 0x54, 2, 1, 0, 1, 0, 1, 1, 2, 0, 0, 0xab, 0xcd, 7, 7, 7, 7,
        ],
    ]
}

#[test]
fn settings_come_out_as_they_were_stored() {
    let mut all = 0;
    for bits in 0..32 {
        for limit in [0, 1, 255, 256, 258, 65_535] {
            for expiry in [2_500, 2_501, 20_000, 43_981, 59_999, 60_000] {
                let flags = [0, 1, 2, 3].map(|i| bits >> i & 1 == 1);
                let one = (flags, bits >> 4 == 1, limit, expiry);
                let s = settings(one);
                assert_eq!(fields(&s), one);
                assert_eq!(s.to_bytes()[..], written(one));
                assert_eq!(Settings::from_bytes(&s.to_bytes()), Ok(s));
                assert_eq!(
                    Settings::from_bytes_layout_1(&s.to_bytes()),
                    Err(Stop::UnreadableSettingsRecord)
                );
                all += 1;
            }
        }
    }
    assert_eq!(all, 32 * 36);
    assert_eq!(
        Settings::new().to_bytes(),
        [0x53, 0x54, 2, 0, 0, 0, 0, 0, 0, 0, 0, 0, 0x4e, 0x20]
    );
}

#[test]
fn a_record_is_written_over_its_own_bytes_alone() {
    let s = settings(([true, false, true, false], true, 258, 43_981));
    for length in 0..=64 {
        let mut bytes = vec![0xcc; length];
        let stored = s.store(&mut bytes);
        let mut expected = vec![0xcc; length];
        if length < Settings::RECORD_LENGTH {
            assert_eq!(stored, Err(Stop::TooShort(14)), "{length}");
        } else {
            assert_eq!(stored, Ok(()), "{length}");
            expected[..14].copy_from_slice(&s.to_bytes());
        }
        assert_eq!(bytes, expected, "{length}");
    }
}

/// With their numbers, in the order of the tests; where two faults stand in a record, the first decides.
#[test]
fn refusals() {
    let [one, two] = records();
    let number = |bytes: &[u8]| Settings::from_bytes(bytes).unwrap_err().number();
    assert_eq!(
        [number(&[]), number(&[0x53]), number(&[0x53, 0x54])],
        [22; 3]
    );
    assert_eq!(
        [&[0x54, 0x54, 2], &[0x53, 0x53, 2], &[0x54, 0x53, 3]].map(|b| number(b)),
        [22; 3]
    );
    assert_eq!(
        [0, 3, 255].map(|layout| number(&[0x53, 0x54, layout])),
        [23; 3]
    );
    assert_eq!([number(&one[..3]), number(&one[..9])], [22; 2]);
    assert_eq!([number(&two[..3]), number(&two[..13])], [22; 2]);
    for place in 3..=7 {
        for (record, least) in [(&one, 10), (&two, 14)] {
            let mut bytes = record.clone();
            bytes[place] = 2;
            assert_eq!(
                [number(&bytes[..least - 1]), number(&bytes[..least])],
                [22, 23],
                "{place}"
            );
        }
    }
    // The reader of layout 1 alone sees the layout before anything behind it.
    for length in 3..=two.len() {
        assert_eq!(
            Settings::from_bytes_layout_1(&two[..length]),
            Err(Stop::UnreadableSettingsRecord)
        );
    }
    let first = settings(([true, false, true, false], true, 65_534, 20_000));
    assert_eq!(Settings::from_bytes(&one), Ok(first));
    assert_eq!(Settings::from_bytes_layout_1(&one), Ok(first));
    let second = settings(([true, false, true, false], true, 258, 43_981));
    assert_eq!(Settings::from_bytes(&two), Ok(second));
}

/// One byte changed to every value, and two bytes to some, at every length.
#[test]
fn changed_records() {
    const SOME: [u8; 8] = [0, 1, 2, 3, 0x53, 0x54, 0xea, 0xff];
    for record in records() {
        for length in 0..=record.len() {
            hold(&record[..length]);
            for place in 0..length {
                let mut bytes = record[..length].to_vec();
                for byte in 0..=255 {
                    bytes[place] = byte;
                    hold(&bytes);
                }
                for other in 0..place {
                    for (one, two) in SOME.iter().flat_map(|o| SOME.map(|t| (*o, t))) {
                        (bytes[place], bytes[other]) = (one, two);
                        hold(&bytes);
                    }
                    bytes[other] = record[other];
                }
            }
        }
    }
}

/// Every limit, and every expiry to beyond its range and at each higher bit.
#[test]
fn every_number_of_a_field() {
    let [_, mut bytes] = records();
    for limit in 0..=65_535u16 {
        bytes[8..10].copy_from_slice(&limit.to_be_bytes());
        hold(&bytes);
        let s = Settings::from_bytes(&bytes).unwrap();
        assert_eq!(s.source_limit(), (limit > 0).then_some(limit));
    }
    let high = (16..32).flat_map(|bit| [1 << bit, 1 << bit | 2_500, 1 << bit | 60_000]);
    for expiry in (0..70_000).chain(high).chain([u32::MAX]) {
        bytes[10..14].copy_from_slice(&expiry.to_be_bytes());
        hold(&bytes);
        assert_eq!(
            Settings::from_bytes(&bytes).is_ok(),
            (2_500..=60_000).contains(&expiry)
        );
    }
}

#[test]
fn random_bytes() {
    let mut state = 1u64;
    let mut below = |n: u64| {
        state = state
            .wrapping_mul(6_364_136_223_846_793_005)
            .wrapping_add(1_442_695_040_888_963_407);
        (state >> 33) % n
    };
    let mut taken = [0; 3];
    for _ in 0..200_000 {
        let mut bytes: Vec<u8> = (0..below(20)).map(|_| below(256) as u8).collect();
        for (place, byte) in [0x53, 0x54].into_iter().enumerate() {
            if let Some(b) = bytes.get_mut(place).filter(|_| below(10) > 0) {
                *b = byte;
            }
        }
        if let Some(b) = bytes.get_mut(2) {
            *b = below(4) as u8;
        }
        for b in bytes.iter_mut().skip(3).take(5) {
            *b = if below(20) > 0 { *b & 1 } else { *b };
        }
        for b in bytes.iter_mut().skip(10).take(2) {
            *b = if below(8) > 0 { 0 } else { *b };
        }
        hold(&bytes);
        taken[match Settings::from_bytes(&bytes).map_err(|stop| stop.number()) {
            Ok(_) => 0,
            Err(22) => 1,
            Err(_) => 2,
        }] += 1;
    }
    // Records, 22 and 23 are all met often.
    assert!(taken.iter().all(|n| *n > 10_000), "{taken:?}");
}
