//! What stops a call.

use crate::{Cid, ffi};
use core::fmt::{self, Write as _};

/// What stops a call, with the values that go with it: the numbers 1 to 15 and 20 to 23 of the receiver's table.
///
/// A stop is an answer, not a fault of the receiver, which goes on with the next call. 4, 5 and 9 are announcements that were asked for. A node with two
/// network ports hears each packet twice: 21 is then no fault and need not be logged, 7 is one. Shown, a stop is a sentence that ends in its number.
///
/// Later versions may have further numbers; 16 was given up and is not used again. A number that this version does not know never becomes a `Stop`: it is a
/// bug, and the call panics and names it.
///
/// ```
/// use tamburelvi::{Receiver, Stop};
///
/// fn listens() -> Result<(), Box<dyn std::error::Error>> {
///     Receiver::new().listen_universes(&[1, 64_000])?;
///     Ok(())
/// }
/// assert_eq!(listens().unwrap_err().to_string(), "universe 64000 is illegal (number 2)");
/// assert_eq!(Stop::IllegalUniverse(64_000).number(), 2);
/// ```
#[derive(Clone, Copy, PartialEq, Eq, Hash, Debug)]
#[non_exhaustive]
pub enum Stop {
    /// 1: values over 513, a name over 63 bytes or a list over 512 universes; its length. Nothing changed.
    TooLong(usize),
    /// 2: an illegal universe, of a list the first. Legal are 1 to 63999, and 64214. Nothing changed; in a step, where it is the packet's address, the
    /// sequence number stays stored.
    IllegalUniverse(u16),
    /// 3: muting a universe that is not listened to. Nothing changed.
    UniverseNotRegistered(u16),
    /// 4: an announced timeout; the source and its universe, or synchronisation address. That pair is gone. The packet was not taken and may be offered again.
    UniverseTimeout(Cid, u16),
    /// 5: an announced termination; the source and its universe. The termination is done.
    UniverseTerminated(Cid, u16),
    /// 6: the source limit is reached; the number of sources. The packet was not taken.
    SourcesExceeded(usize),
    /// 7: the sequence number is late. The packet was not taken, and nothing changed but what the poll swept.
    OutOfSequence {
        /// The packet's sequence number.
        arriving: u8,
        /// The last accepted one.
        last: u8,
        /// The first minus the second, modulo 256 and read as signed: -19 to -1.
        difference: i8,
    },
    /// 8: the merge with the data that waits for the universe is refused. Both are lost; the sequence number stays stored.
    DmxMergeError,
    /// 9: an announced discovery; the packet's name. The source is listed.
    SourceDiscovered(Name),
    /// 10: the table holds 1,024 pairs, and the packet's is not among them. The packet was not taken.
    PairsFull,
    /// 11: more than 1,024 universes would be listened to. None was added; in a step the sequence number stays stored.
    ListenedFull,
    /// 12: 64 universes wait, and the packet's is not among them. The packet's data is lost; the sequence number stays stored.
    WaitingFull,
    /// 13: 64 discovery pages are held. The packet was not taken.
    PagesFull,
    /// 14: a source limit of 0. Nothing changed.
    LimitZero,
    /// 15: lent memory is too short; the bytes needed. Nothing was written. [`Settings::store`](crate::Settings::store) alone gives it: to a receiver this
    /// crate lends enough.
    TooShort(usize),
    /// 20: a discovery expiry under 2,500 or over 60,000 milliseconds. Nothing changed.
    ExpiryOutOfRange,
    /// 21: the last sequence number again. The packet was not taken, and nothing changed but what the poll swept. A repeat renews neither the sequence number
    /// nor the reading, so a source that only repeats itself expires.
    Repeated {
        /// The packet's sequence number.
        arriving: u8,
        /// The last accepted one, which is the same.
        last: u8,
        /// The first minus the second: 0.
        difference: i8,
    },
    /// 22: no settings record: under three bytes, a wrong mark, or fewer bytes than the layout needs. No setting is shown.
    NoSettingsRecord,
    /// 23: a settings record of an unknown layout, or with a field out of range. No setting is shown.
    UnreadableSettingsRecord,
}

impl Stop {
    /// The number, as document 01's table, the C header and the replay program have it.
    pub fn number(&self) -> u8 {
        match self {
            Stop::TooLong(_) => 1,
            Stop::IllegalUniverse(_) => 2,
            Stop::UniverseNotRegistered(_) => 3,
            Stop::UniverseTimeout(..) => 4,
            Stop::UniverseTerminated(..) => 5,
            Stop::SourcesExceeded(_) => 6,
            Stop::OutOfSequence { .. } => 7,
            Stop::DmxMergeError => 8,
            Stop::SourceDiscovered(_) => 9,
            Stop::PairsFull => 10,
            Stop::ListenedFull => 11,
            Stop::WaitingFull => 12,
            Stop::PagesFull => 13,
            Stop::LimitZero => 14,
            Stop::TooShort(_) => 15,
            Stop::ExpiryOutOfRange => 20,
            Stop::Repeated { .. } => 21,
            Stop::NoSettingsRecord => 22,
            Stop::UnreadableSettingsRecord => 23,
        }
    }
}

impl fmt::Display for Stop {
    fn fmt(&self, f: &mut fmt::Formatter<'_>) -> fmt::Result {
        match self {
            Stop::TooLong(n) => write!(f, "a part of the packet is too long: its length is {n}"),
            Stop::IllegalUniverse(u) => write!(f, "universe {u} is illegal"),
            Stop::UniverseNotRegistered(u) => {
                write!(f, "universe {u} cannot be muted: it is not listened to")
            }
            Stop::UniverseTimeout(cid, u) => write!(f, "source {cid} timed out on universe {u}"),
            Stop::UniverseTerminated(cid, u) => {
                write!(f, "source {cid} ended its stream on universe {u}")
            }
            Stop::SourcesExceeded(1) => write!(f, "the source limit is reached: 1 source"),
            Stop::SourcesExceeded(n) => write!(f, "the source limit is reached: {n} sources"),
            Stop::OutOfSequence {
                arriving,
                last,
                difference,
            } => write!(
                f,
                "sequence number {arriving} is late after {last}: the difference is {difference}"
            ),
            Stop::DmxMergeError => write!(f, "the merge with the waiting data is refused"),
            Stop::SourceDiscovered(name) => write!(f, "source {name:?} is discovered"),
            Stop::PairsFull => write!(f, "the table is full: 1024 pairs of source and universe"),
            Stop::ListenedFull => write!(f, "more than 1024 universes would be listened to"),
            Stop::WaitingFull => write!(f, "the waiting data is full: 64 universes"),
            Stop::PagesFull => write!(f, "the discovered sources are full: 64 pages"),
            Stop::LimitZero => write!(f, "the source limit cannot be 0"),
            Stop::TooShort(n) => write!(f, "the lent memory is too short: {n} bytes are needed"),
            Stop::ExpiryOutOfRange => {
                write!(f, "the discovery expiry must be 2500 to 60000 milliseconds")
            }
            Stop::Repeated { arriving, .. } => write!(
                f,
                "sequence number {arriving} is a repeat: it is the last one accepted"
            ),
            Stop::NoSettingsRecord => write!(f, "the bytes are no settings record"),
            Stop::UnreadableSettingsRecord => write!(
                f,
                "the settings record has an unknown layout or a field out of range"
            ),
        }?;
        write!(f, " (number {})", self.number())
    }
}

impl core::error::Error for Stop {}

/// The name of a source, at most 63 bytes, held in place.
///
/// Names come from the network, and nothing says that one is UTF-8. [`as_bytes`](Name::as_bytes) has it as it came. Shown, it is text in which bytes that
/// are not UTF-8, and characters that a terminal would obey or not show, are escaped.
#[derive(Clone, Copy, PartialEq, Eq, Hash)]
pub struct Name {
    // Past the length zeros, so that equal names are equal.
    bytes: [u8; 63],
    length: u8,
}

impl Name {
    /// The bytes of the name.
    pub fn as_bytes(&self) -> &[u8] {
        &self.bytes[..usize::from(self.length)]
    }
}

impl AsRef<[u8]> for Name {
    fn as_ref(&self) -> &[u8] {
        self.as_bytes()
    }
}

impl TryFrom<&[u8]> for Name {
    type Error = Stop;

    /// A name of more than 63 bytes is [`Stop::TooLong`].
    fn try_from(name: &[u8]) -> Result<Name, Stop> {
        let mut bytes = [0; 63];
        let front = bytes
            .get_mut(..name.len())
            .ok_or(Stop::TooLong(name.len()))?;
        front.copy_from_slice(name);
        Ok(Name {
            bytes,
            length: name.len() as u8,
        })
    }
}

impl fmt::Display for Name {
    fn fmt(&self, f: &mut fmt::Formatter<'_>) -> fmt::Result {
        Text(self.as_bytes()).show(f, false)
    }
}

impl fmt::Debug for Name {
    fn fmt(&self, f: &mut fmt::Formatter<'_>) -> fmt::Result {
        fmt::Debug::fmt(&Text(self.as_bytes()), f)
    }
}

/// Bytes of a name as text.
pub(crate) struct Text<'a>(pub &'a [u8]);

impl Text<'_> {
    fn show(&self, f: &mut fmt::Formatter<'_>, quoted: bool) -> fmt::Result {
        for chunk in self.0.utf8_chunks() {
            for c in chunk.valid().chars() {
                match c {
                    '\'' => f.write_char(c)?,
                    '"' if !quoted => f.write_char(c)?,
                    _ => write!(f, "{}", c.escape_debug())?,
                }
            }
            for byte in chunk.invalid() {
                write!(f, "\\x{byte:02x}")?;
            }
        }
        Ok(())
    }
}

impl fmt::Debug for Text<'_> {
    fn fmt(&self, f: &mut fmt::Formatter<'_>) -> fmt::Result {
        f.write_char('"')?;
        self.show(f, true)?;
        f.write_char('"')
    }
}

/// The stop that an answer is, by its number and its kind of values, and none for 0, whose values the call reads. Only a packet with a name can have 9.
#[inline]
pub(crate) fn stopped(a: &ffi::Answer, name: Option<&[u8]>) -> Result<(), Stop> {
    if a.number == 0 {
        return Ok(());
    }
    Err(stop_of(a, name))
}

// Apart, so that an answer of 0 makes no `Stop`.
fn stop_of(a: &ffi::Answer, name: Option<&[u8]>) -> Stop {
    let cid = Cid::of(a.hi, a.lo);
    match (a.number, a.values) {
        (1, ffi::ONE) => Stop::TooLong(a.first),
        (2, ffi::ONE) => Stop::IllegalUniverse(narrow(a.first)),
        (3, ffi::ONE) => Stop::UniverseNotRegistered(narrow(a.first)),
        (4, ffi::PAIR) => Stop::UniverseTimeout(cid, narrow(a.first)),
        (5, ffi::PAIR) => Stop::UniverseTerminated(cid, narrow(a.first)),
        (6, ffi::ONE) => Stop::SourcesExceeded(a.first),
        (7, ffi::SEQUENCE) => Stop::OutOfSequence {
            arriving: narrow(a.first),
            last: narrow(a.second),
            difference: a.difference,
        },
        (8, ffi::NONE) => Stop::DmxMergeError,
        // The library gives 1 for a longer name.
        (9, ffi::ANNOUNCED) => match name.map(Name::try_from) {
            Some(Ok(name)) => Stop::SourceDiscovered(name),
            _ => unknown(a.number, a.values),
        },
        (10, ffi::NONE) => Stop::PairsFull,
        (11, ffi::NONE) => Stop::ListenedFull,
        (12, ffi::NONE) => Stop::WaitingFull,
        (13, ffi::NONE) => Stop::PagesFull,
        (14, ffi::NONE) => Stop::LimitZero,
        (15, ffi::ONE) => Stop::TooShort(a.first),
        (20, ffi::NONE) => Stop::ExpiryOutOfRange,
        (21, ffi::SEQUENCE) => Stop::Repeated {
            arriving: narrow(a.first),
            last: narrow(a.second),
            difference: a.difference,
        },
        (22, ffi::NONE) => Stop::NoSettingsRecord,
        (23, ffi::NONE) => Stop::UnreadableSettingsRecord,
        (number, kind) => unknown(number, kind),
    }
}

/// The end of a call that answered what it cannot: the library's bug or this crate's, which is not shown as anything else.
pub(crate) fn unknown(number: u8, kind: u8) -> ! {
    panic!(
        "a bug: libtamburelvi.a answered {number} with values of kind {kind}, which this crate does not know of the call"
    )
}

/// A number that the library holds in more bits than it needs.
pub(crate) fn narrow<W: Copy + fmt::Display, N: TryFrom<W>>(wide: W) -> N {
    match N::try_from(wide) {
        Ok(narrow) => narrow,
        Err(_) => panic!("a bug: libtamburelvi.a gave {wide}, which is too large for its field"),
    }
}

#[cfg(test)]
mod tests {
    extern crate std;

    use super::*;
    use alloc::string::{String, ToString as _};
    use std::panic::catch_unwind;

    fn answer(number: u8, values: u8) -> ffi::Answer {
        ffi::Answer {
            first: 3,
            second: 0,
            hi: 0,
            lo: 0,
            number,
            values,
            difference: 0,
        }
    }

    // Every number but 0, with its kind of values.
    const KINDS: [(u8, u8); 19] = [
        (1, 1),
        (2, 1),
        (3, 1),
        (4, 3),
        (5, 3),
        (6, 1),
        (7, 4),
        (8, 0),
        (9, 5),
        (10, 0),
        (11, 0),
        (12, 0),
        (13, 0),
        (14, 0),
        (15, 1),
        (20, 0),
        (21, 4),
        (22, 0),
        (23, 0),
    ];

    #[test]
    fn every_number_is_shown_as_itself() {
        assert_eq!(stopped(&answer(0, ffi::NONE), None), Ok(()));
        for (number, kind) in KINDS {
            let stop = stopped(&answer(number, kind), Some(b"a desk")).unwrap_err();
            assert_eq!(stop.number(), number);
            let text = stop.to_string();
            assert!(
                text.ends_with(&alloc::format!(" (number {number})")),
                "{text}"
            );
        }
    }

    // The one that was given up, what lies between the numbers and just above them, and the last one; also with the values of 7 and 21.
    #[test]
    fn every_number_between_is_a_bug() {
        for number in [16, 17, 18, 19, 24, 255] {
            for kind in [ffi::NONE, ffi::SEQUENCE] {
                let end = catch_unwind(|| stopped(&answer(number, kind), Some(b"a desk")));
                let said = end.unwrap_err().downcast::<String>().unwrap();
                let bug = alloc::format!(
                    "a bug: libtamburelvi.a answered {number} with values of kind {kind},"
                );
                assert!(said.starts_with(&bug), "{said}");
            }
        }
    }

    #[test]
    #[should_panic(expected = "a bug: libtamburelvi.a answered 7 with values of kind 1,")]
    fn a_number_with_other_values_is_a_bug() {
        let _ = stopped(&answer(7, ffi::ONE), None);
    }

    #[test]
    #[should_panic(expected = "a bug: libtamburelvi.a answered 20 with values of kind 4,")]
    fn an_expiry_with_values_is_a_bug() {
        let _ = stopped(&answer(20, ffi::SEQUENCE), None);
    }

    #[test]
    #[should_panic(expected = "a bug: libtamburelvi.a answered 21 with values of kind 0,")]
    fn a_repeat_with_other_values_is_a_bug() {
        let _ = stopped(&answer(21, ffi::NONE), None);
    }

    #[test]
    #[should_panic(expected = "a bug: libtamburelvi.a answered 23 with values of kind 1,")]
    fn a_settings_record_with_values_is_a_bug() {
        let _ = stopped(&answer(23, ffi::ONE), None);
    }

    #[test]
    #[should_panic(expected = "a bug: libtamburelvi.a answered 9 with values of kind 5,")]
    fn an_announced_name_without_a_name_is_a_bug() {
        let _ = stopped(&answer(9, ffi::ANNOUNCED), None);
    }

    #[test]
    #[should_panic(expected = "a bug: libtamburelvi.a gave 65536, which is too large")]
    fn a_value_past_its_field_is_a_bug() {
        let wide = ffi::Answer {
            first: 65_536,
            ..answer(2, ffi::ONE)
        };
        let _ = stopped(&wide, None);
    }
}
