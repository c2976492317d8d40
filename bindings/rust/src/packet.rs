//! The packets that a step takes.

use crate::Cid;

/// A data packet (E1.31 6.2).
#[derive(Clone, Copy, PartialEq, Eq, Debug)]
pub struct DataPacket<'a> {
    /// The source.
    pub cid: Cid,
    /// The universe of the values. It is not tested by itself: what is not listened to is not taken.
    pub universe: u16,
    /// The synchronisation address, or 0 for values that are released at once.
    pub address: u16,
    /// The priority; the standard has 0 to 200, and the receiver takes any.
    pub priority: u8,
    /// The sequence number of this source and universe.
    pub sequence: u8,
    /// Option bit 7: not for live output.
    pub preview: bool,
    /// Option bit 6: the source ends this universe's stream.
    pub terminated: bool,
    /// Option bit 5. It is read and has no effect.
    pub force_synchronization: bool,
    /// The values, at most 513, the start code first.
    pub values: &'a [u8],
}

impl<'a> DataPacket<'a> {
    /// An unsynchronised packet of priority 100 without options. What differs is set in its fields.
    pub const fn new(cid: Cid, universe: u16, sequence: u8, values: &'a [u8]) -> DataPacket<'a> {
        DataPacket {
            cid,
            universe,
            address: 0,
            priority: 100,
            sequence,
            preview: false,
            terminated: false,
            force_synchronization: false,
            values,
        }
    }
}

/// A synchronisation packet (E1.31 6.3).
#[derive(Clone, Copy, PartialEq, Eq, Debug)]
pub struct SyncPacket {
    /// The source.
    pub cid: Cid,
    /// The synchronisation address whose data is released.
    pub address: u16,
    /// The sequence number of this source and address, counted apart from those of data.
    pub sequence: u8,
}

/// A discovery packet (E1.31 6.4 and 8): one page of a source's list of universes.
#[derive(Clone, Copy, PartialEq, Eq, Debug)]
pub struct DiscoveryPacket<'a> {
    /// The source.
    pub cid: Cid,
    /// The number of this page, from 0.
    pub page: u8,
    /// The number of the source's last page.
    pub last_page: u8,
    /// The source's name, at most 63 bytes, without the zeros that fill it up in the packet.
    pub name: &'a [u8],
    /// The universes of this page, at most 512.
    pub universes: &'a [u16],
}
