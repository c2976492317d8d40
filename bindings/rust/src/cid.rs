//! A source's identifier.

use core::fmt;
use core::str::FromStr;

/// A source's identifier (CID): its sixteen bytes, as they stand in a packet.
///
/// CIDs ascend as byte strings: the first byte that differs decides. That is the order of every table of the receiver.
///
/// As text a CID is 32 lowercase hexadecimal digits, as in a replay script. With `{:#}` it has the hyphens of a UUID. Both forms parse, in either case.
///
/// ```
/// use tamburelvi::Cid;
///
/// let cid: Cid = "00112233-4455-6677-8899-AABBCCDDEEFF".parse()?;
/// assert_eq!(cid.to_string(), "00112233445566778899aabbccddeeff");
/// assert_eq!(format!("{cid:#}"), "00112233-4455-6677-8899-aabbccddeeff");
/// assert_eq!(cid, Cid::from([0x00, 0x11, 0x22, 0x33, 0x44, 0x55, 0x66, 0x77, 0x88, 0x99, 0xaa, 0xbb, 0xcc, 0xdd, 0xee, 0xff]));
/// # Ok::<(), tamburelvi::ParseCidError>(())
/// ```
#[derive(Clone, Copy, PartialEq, Eq, PartialOrd, Ord, Hash)]
pub struct Cid(
    /// The bytes, in the order of the packet.
    pub [u8; 16],
);

// The bytes before which a UUID has a hyphen.
const GROUPS: [usize; 4] = [4, 6, 8, 10];

impl Cid {
    // As the library takes it: the first eight bytes and the last eight, each most significant byte first.
    pub(crate) fn words(self) -> (u64, u64) {
        let all = u128::from_be_bytes(self.0);
        ((all >> 64) as u64, all as u64)
    }

    pub(crate) fn of(hi: u64, lo: u64) -> Cid {
        Cid((u128::from(hi) << 64 | u128::from(lo)).to_be_bytes())
    }
}

impl From<[u8; 16]> for Cid {
    fn from(bytes: [u8; 16]) -> Cid {
        Cid(bytes)
    }
}

impl From<Cid> for [u8; 16] {
    fn from(cid: Cid) -> [u8; 16] {
        cid.0
    }
}

impl fmt::Display for Cid {
    fn fmt(&self, f: &mut fmt::Formatter<'_>) -> fmt::Result {
        for (i, byte) in self.0.iter().enumerate() {
            if f.alternate() && GROUPS.contains(&i) {
                f.write_str("-")?;
            }
            write!(f, "{byte:02x}")?;
        }
        Ok(())
    }
}

impl fmt::Debug for Cid {
    fn fmt(&self, f: &mut fmt::Formatter<'_>) -> fmt::Result {
        write!(f, "Cid({self})")
    }
}

/// A text that is not a [`Cid`].
#[derive(Clone, Copy, PartialEq, Eq, Debug)]
pub struct ParseCidError(());

impl fmt::Display for ParseCidError {
    fn fmt(&self, f: &mut fmt::Formatter<'_>) -> fmt::Result {
        f.write_str("a CID is 32 hexadecimal digits, plain or with the hyphens of a UUID")
    }
}

impl core::error::Error for ParseCidError {}

impl FromStr for Cid {
    type Err = ParseCidError;

    fn from_str(text: &str) -> Result<Cid, ParseCidError> {
        let digit = |b: u8| char::from(b).to_digit(16).map(|d| d as u8);
        let hyphens = text.len() == 36;
        let mut left = text.bytes();
        let mut cid = [0; 16];
        for (i, byte) in cid.iter_mut().enumerate() {
            if hyphens && GROUPS.contains(&i) && left.next() != Some(b'-') {
                return Err(ParseCidError(()));
            }
            let high = left.next().and_then(digit).ok_or(ParseCidError(()))?;
            let low = left.next().and_then(digit).ok_or(ParseCidError(()))?;
            *byte = high << 4 | low;
        }
        match left.next() {
            None => Ok(Cid(cid)),
            Some(_) => Err(ParseCidError(())),
        }
    }
}
