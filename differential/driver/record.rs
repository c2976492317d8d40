//! The record of settings (document 02, F-6), which the crate has not: its writer and its readers.

use std::ops::RangeInclusive;

/// What a record holds: the settings of the crate's receiver, and the discovery expiry.
pub struct Settings {
    pub preview: bool,
    pub announce_discovery: bool,
    pub announce_termination: bool,
    pub announce_timeout: bool,
    pub highest: bool,
    pub limit: Option<u16>,
    pub expiry: u32,
}

/// The discovery expiry of fresh settings, with which layout 1 is read.
pub const FRESH_EXPIRY: u32 = 20_000;

const MARK: [u8; 2] = [0x53, 0x54];
const LENGTH_1: usize = 10;
const LENGTH_2: usize = 14;
const EXPIRIES: RangeInclusive<u32> = 2_500..=60_000;

/// Writes layout 2, or nothing; answers the stop as it is printed.
pub fn store(settings: &Settings, lent: &mut [u8]) -> Result<(), &'static str> {
    if lent.len() < LENGTH_2 {
        return Err("15 14");
    }
    if settings.limit == Some(0) {
        return Err("14");
    }
    if !EXPIRIES.contains(&settings.expiry) {
        return Err("20");
    }
    lent[..2].copy_from_slice(&MARK);
    lent[2] = 2;
    lent[3] = u8::from(settings.preview);
    lent[4] = u8::from(settings.announce_discovery);
    lent[5] = u8::from(settings.announce_termination);
    lent[6] = u8::from(settings.announce_timeout);
    lent[7] = u8::from(settings.highest);
    lent[8..10].copy_from_slice(&settings.limit.unwrap_or(0).to_be_bytes());
    lent[10..14].copy_from_slice(&settings.expiry.to_be_bytes());
    Ok(())
}

/// Reads a record, one of layout 1 alone if `only_1`; answers the stop as it is printed.
pub fn load(record: &[u8], only_1: bool) -> Result<Settings, &'static str> {
    if record.len() < 3 {
        return Err("22");
    }
    if record[..2] != MARK {
        return Err("22");
    }
    let length = match record[2] {
        1 => LENGTH_1,
        2 if !only_1 => LENGTH_2,
        _ => return Err("23"),
    };
    if record.len() < length {
        return Err("22");
    }
    let limit = u16::from_be_bytes([record[8], record[9]]);
    let expiry = if length == LENGTH_1 {
        FRESH_EXPIRY
    } else {
        u32::from_be_bytes([record[10], record[11], record[12], record[13]])
    };
    if !EXPIRIES.contains(&expiry) {
        return Err("23");
    }
    Ok(Settings {
        preview: flag(record[3])?,
        announce_discovery: flag(record[4])?,
        announce_termination: flag(record[5])?,
        announce_timeout: flag(record[6])?,
        highest: flag(record[7])?,
        limit: (limit != 0).then_some(limit),
        expiry,
    })
}

fn flag(byte: u8) -> Result<bool, &'static str> {
    match byte {
        0 => Ok(false),
        1 => Ok(true),
        _ => Err("23"),
    }
}
