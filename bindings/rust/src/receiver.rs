//! The receiver: its steps, its further calls and its settings.

use crate::state::State;
use crate::stop::{stopped, unknown};
use crate::{DataPacket, DiscoveryPacket, Merge, Records, Settings, Stop, SyncPacket, ffi};
use core::fmt;

/// What a step that nothing stopped did.
#[derive(Clone, Debug)]
#[must_use = "a step may have released data"]
#[non_exhaustive]
pub enum Step<'a> {
    /// Nothing was released: the packet was passed over, waits, or ended a stream.
    Nothing,
    /// Data was released. It stands in the receiver's output until the next call.
    Released(Records<'a>),
}

/// A receiver with its settings and its memory.
///
/// The memory is about 250 KB on the heap, all of it taken by [`new`](Receiver::new) or by a clone; no other call takes any. A clone is a receiver of its
/// own, with the state and the settings of the first at that moment. `Debug` shows the settings and how much the tables hold; the contents are read by
/// [`data_pairs`](Receiver::data_pairs) and the calls beside it.
pub struct Receiver {
    pub(crate) state: State,
    settings: Settings,
}

// What a call answers that gives no values with 0.
fn done(answer: &ffi::Answer, name: Option<&[u8]>) -> Result<(), Stop> {
    stopped(answer, name)?;
    match answer.values {
        ffi::NONE => Ok(()),
        kind => unknown(0, kind),
    }
}

/// A receiver, and its steps.
impl Receiver {
    /// A fresh receiver: no pairs, waiting data or pages; 64214 alone is listened to; the settings are fresh ([`Settings::new`]).
    pub fn new() -> Receiver {
        Receiver {
            state: State::new(),
            settings: Settings::new(),
        }
    }

    fn step(&self, answer: &ffi::Answer) -> Result<Step<'_>, Stop> {
        stopped(answer, None)?;
        Ok(match answer.values {
            ffi::NONE => Step::Nothing,
            ffi::RELEASE => Step::Released(Records::new(
                &self.state.output()[..answer.second],
                answer.first,
            )),
            kind => unknown(0, kind),
        })
    }

    /// A step on a data packet: the [`poll`](Receiver::poll), then the packet.
    ///
    /// `reading` is the caller's clock in milliseconds. It may fall from one call to the next.
    ///
    /// # Errors
    ///
    /// 1 before all else; 4 of the poll, with which the packet was not taken; 5 of a termination that is announced; 6, 7, 10 and 21 of the pair table; 2, 11,
    /// 12 and 8 of a packet with an address, which is to be listened to and to wait.
    pub fn handle_data_packet(
        &mut self,
        reading: u64,
        packet: &DataPacket<'_>,
    ) -> Result<Step<'_>, Stop> {
        let (hi, lo) = packet.cid.words();
        let data = ffi::Data {
            hi,
            lo,
            universe: packet.universe,
            address: packet.address,
            priority: packet.priority,
            sequence: packet.sequence,
            preview: packet.preview,
            terminated: packet.terminated,
            force_synchronization: packet.force_synchronization,
        };
        let answer = self
            .state
            .data_step(self.settings.0, reading, data, packet.values);
        self.step(&answer)
    }

    /// A step on a synchronisation packet: the [`poll`](Receiver::poll), then the packet, which releases what waits for its address.
    ///
    /// # Errors
    ///
    /// 4 of the poll, with which the packet was not taken; 6, 7, 10 and 21 of the pair table.
    pub fn handle_sync_packet(
        &mut self,
        reading: u64,
        packet: &SyncPacket,
    ) -> Result<Step<'_>, Stop> {
        let (hi, lo) = packet.cid.words();
        let sync = ffi::Sync {
            hi,
            lo,
            address: packet.address,
            sequence: packet.sequence,
        };
        let answer = self.state.sync_step(self.settings.0, reading, sync);
        self.step(&answer)
    }

    /// A step on a discovery packet: the [`poll`](Receiver::poll), then the page. It releases nothing.
    ///
    /// # Errors
    ///
    /// 1 before all else, name before list; 4 of the poll, with which the packet was not taken; 13 where 64 pages are held; 9 where the source was listed by
    /// this page and discovery is announced.
    pub fn handle_universe_discovery_packet(
        &mut self,
        reading: u64,
        packet: &DiscoveryPacket<'_>,
    ) -> Result<(), Stop> {
        let (hi, lo) = packet.cid.words();
        let page = ffi::Page {
            hi,
            lo,
            page: packet.page,
            last_page: packet.last_page,
        };
        let answer = self.state.discovery_step(
            self.settings.0,
            reading,
            page,
            packet.name,
            packet.universes,
        );
        done(&answer, Some(packet.name))
    }
}

/// Further calls.
impl Receiver {
    /// The sweeps that every step begins with: pairs, then waiting data, of age 2,500 milliseconds or more go, whatever the discovery expiry is.
    ///
    /// # Errors
    ///
    /// 4 where timeouts are announced: one pair is gone, and what comes after it is not swept. Call again until nothing stops it. A table whose first source,
    /// the one of the lowest CID, has nothing expired is then not swept at all: what is silent behind it stays until that source times out too.
    pub fn poll(&mut self, reading: u64) -> Result<(), Stop> {
        done(&self.state.poll(self.settings.0, reading), None)
    }

    /// The discovery sweep: discovered sources, partial and listed, of the age of the [`discovery_expiry`](Receiver::discovery_expiry) or more go. No step and
    /// no poll makes it.
    pub fn remove_expired_sources(&mut self, reading: u64) {
        let answer = self.state.remove_expired_sources(self.settings.0, reading);
        match (answer.number, answer.values) {
            (0, ffi::NONE) => {}
            (number, kind) => unknown(number, kind),
        }
    }

    /// Listens to all of the universes, or to none.
    ///
    /// # Errors
    ///
    /// 2 with the first illegal one; then 11 where more than 1,024 would be listened to.
    pub fn listen_universes(&mut self, universes: &[u16]) -> Result<(), Stop> {
        done(&self.state.listen_universes(universes), None)
    }

    /// Listens to the universe no longer. What waits for it still waits.
    ///
    /// # Errors
    ///
    /// 2 where it is illegal, then 3 where it is not listened to.
    pub fn mute_universe(&mut self, universe: u16) -> Result<(), Stop> {
        done(&self.state.mute_universe(universe), None)
    }

    /// Whether the universe is listened to.
    pub fn is_listening(&self, universe: u16) -> bool {
        self.state.is_listening(universe)
    }

    /// Forgets the universe's waiting data; answers whether there was any.
    pub fn clear_waiting_data(&mut self, universe: u16) -> bool {
        let answer = self.state.clear_waiting_data(universe);
        match (answer.number, answer.values, answer.first) {
            (0, ffi::ONE, 0) => false,
            (0, ffi::ONE, 1) => true,
            (number, kind, _) => unknown(number, kind),
        }
    }

    /// Forgets all waiting data.
    pub fn clear_all_waiting_data(&mut self) {
        self.state.clear_all_waiting_data();
    }

    /// Forgets both pair tables: the numbering of all sources. Discovered sources, waiting data and listened universes stay.
    ///
    /// For a desk that was restarted and numbers its packets anew: the next packet of every source, on each universe and each synchronisation address, is
    /// neither late (7) nor a repeat (21), whatever its number. Sources are counted anew towards the source limit, in the order in which their packets come,
    /// and one that stays silent no longer times out (4). Names and pages stay on the list of sources.
    pub fn reset_pairs(&mut self) {
        self.state.reset_pairs();
    }

    /// Forgets both lists of discovered sources. Pair tables, waiting data and listened universes stay.
    ///
    /// The list of sources is built anew from the next announcements, the discovery packets. All 64 pages are free again (13).
    pub fn reset_discovery(&mut self) {
        self.state.reset_discovery();
    }

    /// [`reset_pairs`](Receiver::reset_pairs), then [`reset_discovery`](Receiver::reset_discovery): the two in turn. Waiting data and listened universes
    /// stay.
    pub fn reset_sources(&mut self) {
        self.state.reset_sources();
    }
}

/// Settings. Each may change between any two calls, and holds from the next call on. [`Settings`] says what each does.
impl Receiver {
    /// All settings, as a value.
    pub fn settings(&self) -> Settings {
        self.settings
    }

    /// Takes all of these settings.
    pub fn set_settings(&mut self, settings: Settings) {
        self.settings = settings;
    }

    /// As [`Settings::process_preview_data`].
    pub fn process_preview_data(&self) -> bool {
        self.settings.process_preview_data()
    }

    /// As [`Settings::set_process_preview_data`].
    pub fn set_process_preview_data(&mut self, on: bool) {
        self.settings.set_process_preview_data(on);
    }

    /// As [`Settings::announce_source_discovery`].
    pub fn announce_source_discovery(&self) -> bool {
        self.settings.announce_source_discovery()
    }

    /// As [`Settings::set_announce_source_discovery`].
    pub fn set_announce_source_discovery(&mut self, on: bool) {
        self.settings.set_announce_source_discovery(on);
    }

    /// As [`Settings::announce_stream_termination`].
    pub fn announce_stream_termination(&self) -> bool {
        self.settings.announce_stream_termination()
    }

    /// As [`Settings::set_announce_stream_termination`].
    pub fn set_announce_stream_termination(&mut self, on: bool) {
        self.settings.set_announce_stream_termination(on);
    }

    /// As [`Settings::announce_timeout`].
    pub fn announce_timeout(&self) -> bool {
        self.settings.announce_timeout()
    }

    /// As [`Settings::set_announce_timeout`].
    pub fn set_announce_timeout(&mut self, on: bool) {
        self.settings.set_announce_timeout(on);
    }

    /// As [`Settings::merge`].
    pub fn merge(&self) -> Merge {
        self.settings.merge()
    }

    /// As [`Settings::set_merge`].
    pub fn set_merge(&mut self, merge: Merge) {
        self.settings.set_merge(merge);
    }

    /// As [`Settings::source_limit`].
    pub fn source_limit(&self) -> Option<u16> {
        self.settings.source_limit()
    }

    /// As [`Settings::set_source_limit`].
    ///
    /// # Errors
    ///
    /// 14 for a limit of 0, which changes nothing.
    pub fn set_source_limit(&mut self, limit: Option<u16>) -> Result<(), Stop> {
        self.settings.set_source_limit(limit)
    }

    /// As [`Settings::discovery_expiry`].
    pub fn discovery_expiry(&self) -> u32 {
        self.settings.discovery_expiry()
    }

    /// As [`Settings::set_discovery_expiry`].
    ///
    /// # Errors
    ///
    /// 20 for an expiry under 2,500 or over 60,000, which changes nothing.
    pub fn set_discovery_expiry(&mut self, expiry: u32) -> Result<(), Stop> {
        self.settings.set_discovery_expiry(expiry)
    }
}

impl Default for Receiver {
    /// A fresh receiver.
    fn default() -> Receiver {
        Receiver::new()
    }
}

impl Clone for Receiver {
    fn clone(&self) -> Receiver {
        Receiver {
            state: self.state.clone(),
            settings: self.settings,
        }
    }

    /// Takes no memory: the other's state is copied into this receiver's.
    fn clone_from(&mut self, from: &Receiver) {
        self.state.clone_from(&from.state);
        self.settings = from.settings;
    }
}

impl fmt::Debug for Receiver {
    fn fmt(&self, f: &mut fmt::Formatter<'_>) -> fmt::Result {
        let held = self.state.header();
        let mut shown = f.debug_struct("Receiver");
        shown
            .field("data_pairs", &held.data_pairs)
            .field("data_sources", &held.data_sources)
            .field("sync_pairs", &held.sync_pairs)
            .field("sync_sources", &held.sync_sources)
            .field("waiting_data", &held.waiting)
            .field("listened_universes", &held.listened)
            .field("discovered_sources", &held.sources)
            .field("discovery_pages", &held.pages);
        self.settings.show(&mut shown);
        shown.finish_non_exhaustive()
    }
}
