//! The lines of a replay script (docs/REPLAY.md), taken apart. A line that is no command gives `None`.

pub struct Data {
    pub now: u64,
    pub cid: [u8; 16],
    pub universe: u16,
    pub address: u16,
    pub priority: u8,
    pub sequence: u8,
    pub options: u8,
    pub values: Vec<u8>,
}

pub struct Sync {
    pub now: u64,
    pub cid: [u8; 16],
    pub address: u16,
    pub sequence: u8,
}

pub struct Discovery {
    pub now: u64,
    pub cid: [u8; 16],
    pub page: u8,
    pub last: u8,
    pub name: Vec<u8>,
    pub universes: Vec<u16>,
}

pub enum Command {
    Fresh,
    Preview(bool),
    AnnounceDiscovery(bool),
    AnnounceTermination(bool),
    AnnounceTimeout(bool),
    MergeHighest(bool),
    Limit(Option<u16>),
    Expiry(u32),
    StoreSettings(usize),
    LoadSettings { record: Vec<u8>, only_1: bool },
    Settings,
    RawLimit(u16),
    RawExpiry(u32),
    Listen(Vec<u16>),
    Mute(u16),
    Listening(u16),
    Poll(u64),
    Sweep(u64),
    Clear(u16),
    ClearAll,
    Reset,
    ResetPairs,
    ResetDiscovery,
    Data(Data),
    Sync(Sync),
    Discovery(Discovery),
    Dump,
}

/// A line of more bytes than this is an `error`.
pub const LONGEST_LINE: usize = 8192;
/// The most bytes that `store_settings` lends.
const MOST_LENT: usize = 64;

pub fn parse(line: &str) -> Option<Command> {
    if LONGEST_LINE < line.len() {
        return None;
    }
    let fields: Vec<&str> = line.split(' ').collect();
    Some(match fields[..] {
        ["fresh"] => Command::Fresh,
        ["preview", on] => Command::Preview(flag(on)?),
        ["announce_discovery", on] => Command::AnnounceDiscovery(flag(on)?),
        ["announce_termination", on] => Command::AnnounceTermination(flag(on)?),
        ["announce_timeout", on] => Command::AnnounceTimeout(flag(on)?),
        ["merge", "priority"] => Command::MergeHighest(false),
        ["merge", "highest"] => Command::MergeHighest(true),
        ["limit", "none"] => Command::Limit(None),
        ["limit", n] => Command::Limit(Some(number(n)?)),
        ["expiry", n] => Command::Expiry(number(n)?),
        ["store_settings", n] => Command::StoreSettings(number(n).filter(|n| *n <= MOST_LENT)?),
        ["load_settings", record] => Command::LoadSettings {
            record: bytes(record)?,
            only_1: false,
        },
        ["load_settings", record, "1"] => Command::LoadSettings {
            record: bytes(record)?,
            only_1: true,
        },
        ["settings"] => Command::Settings,
        ["raw_limit", n] => Command::RawLimit(number(n)?),
        ["raw_expiry", n] => Command::RawExpiry(number(n)?),
        ["listen", universes] => Command::Listen(list(universes)?),
        ["mute", u] => Command::Mute(number(u)?),
        ["listening", u] => Command::Listening(number(u)?),
        ["poll", now] => Command::Poll(number(now)?),
        ["sweep", now] => Command::Sweep(number(now)?),
        ["clear", u] => Command::Clear(number(u)?),
        ["clear_all"] => Command::ClearAll,
        ["reset"] => Command::Reset,
        ["reset_pairs"] => Command::ResetPairs,
        ["reset_discovery"] => Command::ResetDiscovery,
        ["dump"] => Command::Dump,
        [
            "data",
            now,
            source,
            universe,
            address,
            priority,
            sequence,
            set,
            values,
        ] => Command::Data(Data {
            now: number(now)?,
            cid: cid(source)?,
            universe: number(universe)?,
            address: number(address)?,
            priority: number(priority)?,
            sequence: number(sequence)?,
            options: options(set)?,
            values: bytes(values)?,
        }),
        ["sync", now, source, address, sequence] => Command::Sync(Sync {
            now: number(now)?,
            cid: cid(source)?,
            address: number(address)?,
            sequence: number(sequence)?,
        }),
        ["discovery", now, source, page, last, name, universes] => Command::Discovery(Discovery {
            now: number(now)?,
            cid: cid(source)?,
            page: number(page)?,
            last: number(last)?,
            name: bytes(name)?,
            universes: list(universes)?,
        }),
        _ => return None,
    })
}

fn flag(field: &str) -> Option<bool> {
    match field {
        "0" => Some(false),
        "1" => Some(true),
        _ => None,
    }
}

// Decimal digits and nothing else: the standard library would take a sign too.
fn number<T: std::str::FromStr>(field: &str) -> Option<T> {
    if field.bytes().all(|b| b.is_ascii_digit()) {
        field.parse().ok()
    } else {
        None
    }
}

fn options(field: &str) -> Option<u8> {
    number(field).filter(|n: &u8| n % 32 == 0)
}

fn list(field: &str) -> Option<Vec<u16>> {
    if field == "-" {
        return Some(Vec::new());
    }
    field.split(',').map(number).collect()
}

fn bytes(field: &str) -> Option<Vec<u8>> {
    if field == "-" {
        return Some(Vec::new());
    }
    if field.is_empty() || field.bytes().any(|b| b.is_ascii_uppercase()) {
        return None;
    }
    hexadecimal(field)
}

fn cid(field: &str) -> Option<[u8; 16]> {
    hexadecimal(field)?.try_into().ok()
}

fn hexadecimal(field: &str) -> Option<Vec<u8>> {
    let digits: Vec<u8> = field
        .chars()
        .map(|c| c.to_digit(16).map(|d| d as u8))
        .collect::<Option<_>>()?;
    if digits.len() % 2 == 1 {
        return None;
    }
    Some(digits.chunks(2).map(|d| d[0] * 16 + d[1]).collect())
}
