//! Settings, and the records in which they are stored.

use crate::stop::unknown;
use crate::{Stop, ffi, state};
use core::fmt;

/// How a packet joins the data that waits for its universe.
#[derive(Clone, Copy, PartialEq, Eq, Hash, Debug)]
#[non_exhaustive]
pub enum Merge {
    /// The data of higher priority is kept, at equal priority the newer.
    DiscardLowestPriorityThenPrevious = 0,
    /// The data of higher priority is kept; at equal priority the larger value at each place.
    HtpDmxMerge = 1,
}

/// The settings of a receiver, as a value.
///
/// A [`Receiver`](crate::Receiver) has them and the same getters and setters. Settings outlive a power cycle as a record, which the caller keeps:
///
/// ```
/// use tamburelvi::{Receiver, Settings};
///
/// let mut receiver = Receiver::new();
/// receiver.set_announce_timeout(true);
/// let kept = receiver.settings().to_bytes();
///
/// let mut receiver = Receiver::new();
/// receiver.set_settings(Settings::from_bytes(&kept)?);
/// assert!(receiver.announce_timeout());
/// # Ok::<(), tamburelvi::Stop>(())
/// ```
///
/// # Records
///
/// A record is the mark 53 54 (hexadecimal), a byte for the layout, then the fields, numbers most significant byte first. Layout 1, 10 bytes in all, has
/// preview and the announcements of discovery, termination and timeout, a byte each, 0 or 1; the merge choice, a byte, 0 by priority and 1 by highest value;
/// the source limit, two bytes, 0 for none. Layout 2, 14 bytes in all, has the discovery expiry behind them, four bytes. Layout 2 is written, both are read.
/// There is no checksum: whoever keeps the bytes sees to it that they stay.
#[derive(Clone, Copy, PartialEq, Eq, Hash)]
pub struct Settings(pub(crate) ffi::Settings);

/// The settings, one by one.
impl Settings {
    /// The fresh settings: preview and announcements off, merging by priority, no source limit, a discovery expiry of 20,000 milliseconds.
    pub fn new() -> Settings {
        Settings(ffi::tamburelvi_fresh_settings())
    }

    /// Whether data packets that are marked preview are taken. Fresh: no.
    pub fn process_preview_data(&self) -> bool {
        self.0.process_preview_data
    }

    /// Takes data packets that are marked preview, or passes them over.
    pub fn set_process_preview_data(&mut self, on: bool) {
        self.0 = ffi::tamburelvi_set_process_preview_data(self.0, on);
    }

    /// Whether a source that is listed is announced. Fresh: no.
    pub fn announce_source_discovery(&self) -> bool {
        self.0.announce_source_discovery
    }

    /// Announces a source that is listed, by [`Stop::SourceDiscovered`] (9), or not.
    pub fn set_announce_source_discovery(&mut self, on: bool) {
        self.0 = ffi::tamburelvi_set_announce_source_discovery(self.0, on);
    }

    /// Whether the end of a stream is announced. Fresh: no.
    pub fn announce_stream_termination(&self) -> bool {
        self.0.announce_stream_termination
    }

    /// Announces the end of a stream, by [`Stop::UniverseTerminated`] (5), or not.
    pub fn set_announce_stream_termination(&mut self, on: bool) {
        self.0 = ffi::tamburelvi_set_announce_stream_termination(self.0, on);
    }

    /// Whether timeouts are announced. Fresh: no.
    pub fn announce_timeout(&self) -> bool {
        self.0.announce_timeout
    }

    /// Announces timeouts, by [`Stop::UniverseTimeout`] (4), one with each poll or step, or sweeps silently.
    pub fn set_announce_timeout(&mut self, on: bool) {
        self.0 = ffi::tamburelvi_set_announce_timeout(self.0, on);
    }

    /// How a packet joins the data that waits for its universe. Fresh: [`Merge::DiscardLowestPriorityThenPrevious`].
    pub fn merge(&self) -> Merge {
        match self.0.merge {
            0 => Merge::DiscardLowestPriorityThenPrevious,
            1 => Merge::HtpDmxMerge,
            merge => panic!("a bug: libtamburelvi.a left the merge choice {merge}"),
        }
    }

    /// Chooses how a packet joins the data that waits for its universe.
    pub fn set_merge(&mut self, merge: Merge) {
        self.0 = ffi::tamburelvi_set_merge(self.0, merge as u8);
    }

    /// How many sources each pair table takes. Fresh: no limit.
    pub fn source_limit(&self) -> Option<u16> {
        match self.0.source_limit {
            0 => None,
            limit => Some(limit),
        }
    }

    /// Limits how many sources each pair table takes, or lifts the limit. A limit below the number that is held turns nobody out.
    ///
    /// # Errors
    ///
    /// 14 for a limit of 0, which changes nothing.
    pub fn set_source_limit(&mut self, limit: Option<u16>) -> Result<(), Stop> {
        *self = match limit {
            None => Settings(ffi::tamburelvi_clear_source_limit(self.0)),
            Some(limit) => adjusted(
                ffi::tamburelvi_set_source_limit(self.0, limit),
                &[Stop::LimitZero],
            )?,
        };
        Ok(())
    }

    /// At which age, in milliseconds, the discovery sweep drops a source. Fresh: 20,000.
    pub fn discovery_expiry(&self) -> u32 {
        self.0.discovery_expiry
    }

    /// Chooses at which age [`remove_expired_sources`](crate::Receiver::remove_expired_sources) drops a source, partial or listed: 2,500 to 60,000
    /// milliseconds.
    ///
    /// E1.31 has sources announce themselves every 10 seconds: by the fresh 20,000 one announcement may be lost, if the next comes before the last one heard is
    /// 20,000 old; by 10,000 or less a source can go between any two. The longer the expiry, the longer sources that are gone or stay partial hold pages, of
    /// which there are 64 (13). Pairs and waiting data expire at 2,500, whatever is set here.
    ///
    /// # Errors
    ///
    /// 20 for an expiry under 2,500 or over 60,000, which changes nothing.
    pub fn set_discovery_expiry(&mut self, expiry: u32) -> Result<(), Stop> {
        *self = adjusted(
            ffi::tamburelvi_set_discovery_expiry(self.0, expiry),
            &[Stop::ExpiryOutOfRange],
        )?;
        Ok(())
    }

    // Each by its name.
    pub(crate) fn show(&self, shown: &mut fmt::DebugStruct<'_, '_>) {
        shown
            .field("process_preview_data", &self.process_preview_data())
            .field(
                "announce_source_discovery",
                &self.announce_source_discovery(),
            )
            .field(
                "announce_stream_termination",
                &self.announce_stream_termination(),
            )
            .field("announce_timeout", &self.announce_timeout())
            .field("merge", &self.merge())
            .field("source_limit", &self.source_limit())
            .field("discovery_expiry", &self.discovery_expiry());
    }
}

/// Records.
impl Settings {
    /// Bytes of a record, as it is written.
    pub const RECORD_LENGTH: usize = 14;

    /// A record of the settings, of layout 2.
    pub fn to_bytes(&self) -> [u8; Settings::RECORD_LENGTH] {
        let mut bytes = [0; Settings::RECORD_LENGTH];
        match self.store(&mut bytes) {
            Ok(()) => bytes,
            Err(stop) => unknown(stop.number(), ffi::ONE),
        }
    }

    /// Writes a record of the settings, of layout 2, over the first of the bytes. The rest is left as it is.
    ///
    /// # Errors
    ///
    /// 15 with [`RECORD_LENGTH`](Settings::RECORD_LENGTH) where there are fewer bytes; nothing is written.
    pub fn store(&self, bytes: &mut [u8]) -> Result<(), Stop> {
        let answer = state::store_settings(self.0, bytes);
        match (answer.number, answer.values) {
            (0, ffi::NONE) => Ok(()),
            (15, ffi::ONE) => Err(Stop::TooShort(answer.first)),
            (number, kind) => unknown(number, kind),
        }
    }

    /// The settings of a record of layout 1 or 2. What stands behind its last field is not read; layout 1 has no discovery expiry and is read with 20,000.
    ///
    /// # Errors
    ///
    /// 22 for under three bytes or a wrong mark; 23 for an unknown layout; 22 for fewer bytes than the layout needs, whatever they hold; 23 for a field out of
    /// range: tested in this order.
    pub fn from_bytes(bytes: &[u8]) -> Result<Settings, Stop> {
        adjusted(state::load_settings(Settings::new().0, bytes), &UNREAD)
    }

    /// [`from_bytes`](Settings::from_bytes) by a reader that knows layout 1 alone, as older firmware does.
    ///
    /// # Errors
    ///
    /// As `from_bytes`; a record of layout 2 is of an unknown layout (23), and none of its settings is shown.
    pub fn from_bytes_layout_1(bytes: &[u8]) -> Result<Settings, Stop> {
        adjusted(
            state::load_settings_layout_1(Settings::new().0, bytes),
            &UNREAD,
        )
    }
}

// What a reader of records refuses with.
const UNREAD: [Stop; 2] = [Stop::NoSettingsRecord, Stop::UnreadableSettingsRecord];

// What a call leaves that can refuse with these stops alone.
fn adjusted(adjusted: ffi::Adjusted, refusals: &[Stop]) -> Result<Settings, Stop> {
    let refused = refusals.iter().find(|s| s.number() == adjusted.number);
    match (adjusted.number, refused) {
        (0, _) => Ok(Settings(adjusted.settings)),
        (_, Some(stop)) => Err(*stop),
        (number, None) => unknown(number, ffi::NONE),
    }
}

impl Default for Settings {
    /// The fresh settings.
    fn default() -> Settings {
        Settings::new()
    }
}

impl fmt::Debug for Settings {
    fn fmt(&self, f: &mut fmt::Formatter<'_>) -> fmt::Result {
        let mut shown = f.debug_struct("Settings");
        self.show(&mut shown);
        shown.finish()
    }
}

#[cfg(test)]
mod tests {
    use super::*;

    fn answered(number: u8, refusals: &[Stop]) -> Result<Settings, Stop> {
        let settings = Settings::new().0;
        adjusted(ffi::Adjusted { settings, number }, refusals)
    }

    #[test]
    fn a_refusal_is_shown_as_itself() {
        assert_eq!(answered(0, &UNREAD), Ok(Settings::new()));
        assert_eq!(answered(22, &UNREAD), Err(Stop::NoSettingsRecord));
        assert_eq!(answered(23, &UNREAD), Err(Stop::UnreadableSettingsRecord));
        assert_eq!(answered(14, &[Stop::LimitZero]), Err(Stop::LimitZero));
    }

    #[test]
    #[should_panic(expected = "a bug: libtamburelvi.a answered 24 with values of kind 0,")]
    fn an_unknown_number_of_a_reader_is_a_bug() {
        let _ = answered(24, &UNREAD);
    }

    #[test]
    #[should_panic(expected = "a bug: libtamburelvi.a answered 20 with values of kind 0,")]
    fn a_setters_number_of_a_reader_is_a_bug() {
        let _ = answered(20, &UNREAD);
    }

    #[test]
    #[should_panic(expected = "a bug: libtamburelvi.a answered 22 with values of kind 0,")]
    fn a_readers_number_of_a_setter_is_a_bug() {
        let _ = answered(22, &[Stop::LimitZero]);
    }

    // No call of this crate leaves such settings.
    #[test]
    #[should_panic(expected = "a bug: libtamburelvi.a answered 20 with values of kind 0,")]
    fn settings_that_cannot_be_stored_are_a_bug() {
        let mut settings = Settings::new();
        settings.0.discovery_expiry = 60_001;
        settings.to_bytes();
    }
}
