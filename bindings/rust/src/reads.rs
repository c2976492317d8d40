//! The receiver's state, read out entry by entry.

use crate::stop::{Text, narrow};
use crate::{Cid, Receiver, Record, ffi};
use core::fmt;

/// A pair that a table holds: a source and a universe, with its last accepted arrival.
#[derive(Clone, Copy, PartialEq, Eq, Debug)]
pub struct Pair {
    /// The source.
    pub cid: Cid,
    /// The universe, or the address in the synchronisation table.
    pub universe: u16,
    /// The sequence number that was accepted last.
    pub sequence: u8,
    /// When that was, in milliseconds.
    pub reading: u64,
}

/// A discovered source.
#[derive(Clone, Copy)]
pub struct Source<'a> {
    /// The source.
    pub cid: Cid,
    /// Its name, as it came from the network; [`Name`](crate::Name) shows it.
    pub name: &'a [u8],
    /// The number of its last page.
    pub last_page: u8,
    /// When its last page arrived, in milliseconds.
    pub reading: u64,
    receiver: &'a Receiver,
    mark: u64,
}

/// A page of a discovered source.
#[derive(Clone, Copy, PartialEq, Eq, Debug)]
pub struct Page<'a> {
    /// Its number, from 0.
    pub number: u8,
    /// Its universes, in the order in which they came.
    pub universes: &'a [u16],
}

fn pair(p: ffi::PairRead) -> Pair {
    Pair {
        cid: Cid::of(p.hi, p.lo),
        universe: p.universe,
        sequence: p.sequence,
        reading: p.reading,
    }
}

/// The state, for a program that shows or compares it. Reading changes nothing.
impl Receiver {
    /// The pairs of the data table, by ascending CID, then universe.
    pub fn data_pairs(&self) -> impl ExactSizeIterator<Item = Pair> + '_ {
        (0..self.state.header().data_pairs).map(|i| pair(self.state.data_pair(i)))
    }

    /// The pairs of the synchronisation table, by ascending CID, then address.
    pub fn sync_pairs(&self) -> impl ExactSizeIterator<Item = Pair> + '_ {
        (0..self.state.header().sync_pairs).map(|i| pair(self.state.sync_pair(i)))
    }

    /// The sources that the data table counts, ascending.
    pub fn data_sources(&self) -> impl ExactSizeIterator<Item = Cid> + '_ {
        (0..self.state.header().data_sources).map(|i| {
            let c = self.state.data_source(i);
            Cid::of(c.hi, c.lo)
        })
    }

    /// The sources that the synchronisation table counts, ascending.
    pub fn sync_sources(&self) -> impl ExactSizeIterator<Item = Cid> + '_ {
        (0..self.state.header().sync_sources).map(|i| {
            let c = self.state.sync_source(i);
            Cid::of(c.hi, c.lo)
        })
    }

    /// The listened universes, ascending. A step on a data packet adds its synchronisation address.
    pub fn listened_universes(&self) -> impl ExactSizeIterator<Item = u16> + '_ {
        (0..self.state.header().listened).map(|i| self.state.listened(i))
    }

    /// What waits for synchronisation, by ascending universe.
    pub fn waiting_data(&self) -> impl ExactSizeIterator<Item = Record<'_>> + '_ {
        (0..self.state.header().waiting).map(|i| {
            let (d, values) = self.state.waiting(i);
            Record {
                universe: d.universe,
                address: d.address,
                priority: d.priority,
                preview: d.preview,
                cid: d.has_cid.then(|| Cid::of(d.hi, d.lo)),
                reading: d.reading,
                values,
            }
        })
    }

    /// The sources that some pages are known of, in the order of their first page.
    pub fn partial_sources(&self) -> impl Iterator<Item = Source<'_>> {
        self.sources_of(0)
    }

    /// The sources that all pages are known of, in the order of their listing.
    pub fn listed_sources(&self) -> impl Iterator<Item = Source<'_>> {
        self.sources_of(1)
    }

    fn sources_of(&self, mark: u64) -> impl Iterator<Item = Source<'_>> {
        (0..).map_while(move |i| {
            let (s, name) = self.state.source_at(mark, i)?;
            Some(Source {
                cid: Cid::of(s.hi, s.lo),
                name,
                last_page: narrow(s.last_page),
                reading: s.reading,
                receiver: self,
                mark,
            })
        })
    }
}

impl<'a> Source<'a> {
    /// Its pages, by ascending number.
    pub fn pages(&self) -> impl Iterator<Item = Page<'a>> + use<'a> {
        let Source {
            receiver,
            mark,
            cid,
            ..
        } = *self;
        (0..).map_while(move |i| {
            let (p, universes) = receiver.state.page_at(mark, cid.words(), i)?;
            Some(Page {
                number: narrow(p.number),
                universes,
            })
        })
    }
}

impl fmt::Debug for Source<'_> {
    fn fmt(&self, f: &mut fmt::Formatter<'_>) -> fmt::Result {
        f.debug_struct("Source")
            .field("cid", &self.cid)
            .field("name", &Text(self.name))
            .field("last_page", &self.last_page)
            .field("reading", &self.reading)
            .finish_non_exhaustive()
    }
}
