//! Released data: document 01's records, read from the output of a step.

use crate::Cid;
use core::fmt;
use core::iter::FusedIterator;

/// A release of a step: an iterator over its records, by ascending universe. It borrows the receiver's output, so it is used before the next call.
#[derive(Clone)]
pub struct Records<'a> {
    left: &'a [u8],
    count: usize,
}

/// One universe's data, released or waiting.
#[derive(Clone, Copy, Debug, PartialEq, Eq)]
pub struct Record<'a> {
    /// The universe of the values.
    pub universe: u16,
    /// The synchronisation address, 0 where the data was not synchronised.
    pub address: u16,
    /// The priority of the data.
    pub priority: u8,
    /// Not for live output.
    pub preview: bool,
    /// The source, or none where data of equal priority was merged by highest value.
    pub cid: Option<Cid>,
    /// When it was received, in milliseconds; of merged data the older's.
    pub reading: u64,
    /// The values, the start code first.
    pub values: &'a [u8],
}

impl<'a> Records<'a> {
    pub(crate) fn new(bytes: &'a [u8], count: usize) -> Records<'a> {
        Records { left: bytes, count }
    }

    /// The bytes of the records that are left, as document 01 lays them out.
    pub fn bytes(&self) -> &'a [u8] {
        self.left
    }
}

const HEAD: usize = 35;

fn at<const N: usize>(bytes: &[u8], place: usize) -> [u8; N] {
    core::array::from_fn(|i| bytes[place + i])
}

impl<'a> Iterator for Records<'a> {
    type Item = Record<'a>;

    fn next(&mut self) -> Option<Record<'a>> {
        if self.count == 0 {
            return None;
        }
        let head = self.left;
        let length = usize::from(u16::from_be_bytes(at(head, 33)));
        let values = &head[HEAD..HEAD + length];
        self.left = &head[HEAD + length..];
        self.count -= 1;
        Some(Record {
            universe: u16::from_be_bytes(at(head, 2)),
            address: u16::from_be_bytes(at(head, 4)),
            priority: head[6],
            preview: head[7] != 0,
            cid: (head[8] != 0).then(|| Cid(at(head, 9))),
            reading: u64::from_be_bytes(at(head, 25)),
            values,
        })
    }

    fn size_hint(&self) -> (usize, Option<usize>) {
        (self.count, Some(self.count))
    }
}

impl ExactSizeIterator for Records<'_> {}

impl FusedIterator for Records<'_> {}

impl fmt::Debug for Records<'_> {
    fn fmt(&self, f: &mut fmt::Formatter<'_>) -> fmt::Result {
        f.debug_list().entries(self.clone()).finish()
    }
}
