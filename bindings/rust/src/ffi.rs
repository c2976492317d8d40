//! The functions of libtamburelvi.a, as bindings/c/tamburelvi.h has them.
#![allow(unsafe_code)]

#[derive(Clone, Copy)]
#[repr(C)]
pub struct Header {
    pub data_pairs: usize,
    pub data_sources: usize,
    pub data_oldest: u64,
    pub sync_pairs: usize,
    pub sync_sources: usize,
    pub sync_oldest: u64,
    pub waiting: usize,
    pub listened: usize,
    pub sources: usize,
    pub pages: usize,
    pub page_universes: usize,
    pub data_tidy: bool,
    pub sync_tidy: bool,
}

#[derive(Clone, Copy, PartialEq, Eq, Hash)]
#[repr(C)]
pub struct Settings {
    pub process_preview_data: bool,
    pub announce_source_discovery: bool,
    pub announce_stream_termination: bool,
    pub announce_timeout: bool,
    pub merge: u8,
    pub source_limit: u16,
    pub discovery_expiry: u32,
}

#[derive(Clone, Copy)]
#[repr(C)]
pub struct Data {
    pub hi: u64,
    pub lo: u64,
    pub universe: u16,
    pub address: u16,
    pub priority: u8,
    pub sequence: u8,
    pub preview: bool,
    pub terminated: bool,
    pub force_synchronization: bool,
}

#[derive(Clone, Copy)]
#[repr(C)]
pub struct Sync {
    pub hi: u64,
    pub lo: u64,
    pub address: u16,
    pub sequence: u8,
}

#[derive(Clone, Copy)]
#[repr(C)]
pub struct Page {
    pub hi: u64,
    pub lo: u64,
    pub page: u8,
    pub last_page: u8,
}

/// Which values an answer has.
pub const NONE: u8 = 0;
/// `first`: a length, a count, a universe, or 0 or 1.
pub const ONE: u8 = 1;
/// `first`: records in the output; `second`: their bytes.
pub const RELEASE: u8 = 2;
/// `hi`, `lo`: a CID; `first`: a universe.
pub const PAIR: u8 = 3;
/// `first`: arriving; `second`: last; `difference`.
pub const SEQUENCE: u8 = 4;
/// The name of the packet in hand.
pub const ANNOUNCED: u8 = 5;

#[derive(Clone, Copy)]
#[repr(C)]
pub struct Answer {
    pub first: usize,
    pub second: usize,
    pub hi: u64,
    pub lo: u64,
    pub number: u8,
    pub values: u8,
    pub difference: i8,
}

#[repr(C)]
pub struct Reply {
    pub header: Header,
    pub answer: Answer,
}

#[repr(C)]
pub struct Adjusted {
    pub settings: Settings,
    pub number: u8,
}

#[repr(C)]
pub struct PairRead {
    pub hi: u64,
    pub lo: u64,
    pub reading: u64,
    pub universe: u16,
    pub sequence: u8,
}

#[repr(C)]
pub struct CidRead {
    pub hi: u64,
    pub lo: u64,
}

#[repr(C)]
pub struct DmxRead {
    pub hi: u64,
    pub lo: u64,
    pub reading: u64,
    pub universe: u16,
    pub address: u16,
    pub priority: u8,
    pub preview: bool,
    pub has_cid: bool,
}

#[repr(C)]
pub struct PartRead {
    pub start: usize,
    pub count: usize,
}

#[repr(C)]
pub struct SourceRead {
    pub hi: u64,
    pub lo: u64,
    pub reading: u64,
    pub last_page: u64,
    pub name_length: u64,
    pub place: usize,
}

#[repr(C)]
pub struct PageRead {
    pub number: u64,
    pub count: u64,
    pub start: usize,
    pub place: usize,
}

pub type Pairs = [[u64; 4]; 1024];
pub type Sources = [[u64; 2]; 1024];
pub type Rows = [[u64; 9]; 64];
pub type Heard = [u16; 1024];
pub type Found = [[u64; 6]; 64];
pub type Names = [[u8; 63]; 64];
pub type Pages = [[u64; 5]; 64];

// The sizes that the library's structs have by the C calling convention of x86-64, the one target that it is built for.
const _: () = {
    assert!(size_of::<usize>() == 8);
    assert!(size_of::<Header>() == 96 && align_of::<Header>() == 8);
    assert!(size_of::<Settings>() == 12 && align_of::<Settings>() == 4);
    assert!(size_of::<Data>() == 32 && align_of::<Data>() == 8);
    assert!(size_of::<Sync>() == 24 && align_of::<Sync>() == 8);
    assert!(size_of::<Page>() == 24 && align_of::<Page>() == 8);
    assert!(size_of::<Answer>() == 40 && align_of::<Answer>() == 8);
    assert!(size_of::<Reply>() == 136 && align_of::<Reply>() == 8);
    assert!(size_of::<Adjusted>() == 16 && align_of::<Adjusted>() == 4);
    assert!(size_of::<PairRead>() == 32 && align_of::<PairRead>() == 8);
    assert!(size_of::<CidRead>() == 16 && align_of::<CidRead>() == 8);
    assert!(size_of::<DmxRead>() == 32 && align_of::<DmxRead>() == 8);
    assert!(size_of::<PartRead>() == 16 && align_of::<PartRead>() == 8);
    assert!(size_of::<SourceRead>() == 48 && align_of::<SourceRead>() == 8);
    assert!(size_of::<PageRead>() == 32 && align_of::<PageRead>() == 8);
};

// SAFETY of the declarations: they are those of bindings/c/tamburelvi.h. A reference to an array is a pointer to it; a slice goes over as its pointer and its
// length. `safe` are the functions whose contract presupposes nothing but what the parameter types say: they take numbers, or arrays of their full length,
// and stay within them whatever header they get.
unsafe extern "C" {
    pub safe fn tamburelvi_new(heard: &mut Heard) -> Header;

    pub unsafe fn tamburelvi_handle_data_packet(
        header: Header,
        data_pairs: &mut Pairs,
        data_sources: &mut Sources,
        sync_pairs: &mut Pairs,
        sync_sources: &mut Sources,
        rows: &mut Rows,
        store: *mut u8,
        store_length: usize,
        heard: &mut Heard,
        sources: &Found,
        names: &Names,
        pages: &mut Pages,
        universes: *mut u16,
        universes_length: usize,
        settings: Settings,
        reading: u64,
        packet: Data,
        values: *const u8,
        values_length: usize,
        out: *mut u8,
        out_length: usize,
    ) -> Reply;

    pub unsafe fn tamburelvi_handle_sync_packet(
        header: Header,
        data_pairs: &mut Pairs,
        data_sources: &mut Sources,
        sync_pairs: &mut Pairs,
        sync_sources: &mut Sources,
        rows: &mut Rows,
        store: *mut u8,
        store_length: usize,
        heard: &Heard,
        sources: &Found,
        names: &Names,
        pages: &Pages,
        universes: *const u16,
        universes_length: usize,
        settings: Settings,
        reading: u64,
        packet: Sync,
        out: *mut u8,
        out_length: usize,
    ) -> Reply;

    pub unsafe fn tamburelvi_handle_universe_discovery_packet(
        header: Header,
        data_pairs: &mut Pairs,
        data_sources: &mut Sources,
        sync_pairs: &mut Pairs,
        sync_sources: &mut Sources,
        rows: &mut Rows,
        store: *mut u8,
        store_length: usize,
        heard: &Heard,
        sources: &mut Found,
        names: &mut Names,
        pages: &mut Pages,
        universes: *mut u16,
        universes_length: usize,
        settings: Settings,
        reading: u64,
        packet: Page,
        name: *const u8,
        name_length: usize,
        list: *const u16,
        list_length: usize,
        out: *const u8,
        out_length: usize,
    ) -> Reply;

    pub unsafe fn tamburelvi_poll(
        header: Header,
        data_pairs: &mut Pairs,
        data_sources: &mut Sources,
        sync_pairs: &mut Pairs,
        sync_sources: &mut Sources,
        rows: &mut Rows,
        store: *mut u8,
        store_length: usize,
        settings: Settings,
        reading: u64,
    ) -> Reply;

    pub unsafe fn tamburelvi_remove_expired_sources(
        header: Header,
        sources: &mut Found,
        names: &mut Names,
        pages: &mut Pages,
        universes: *mut u16,
        universes_length: usize,
        settings: Settings,
        reading: u64,
    ) -> Reply;

    pub unsafe fn tamburelvi_listen_universes(
        header: Header,
        heard: &mut Heard,
        list: *const u16,
        list_length: usize,
    ) -> Reply;

    pub unsafe fn tamburelvi_mute_universe(
        header: Header,
        heard: &mut Heard,
        universe: u16,
    ) -> Reply;

    pub unsafe fn tamburelvi_is_listening(header: Header, heard: &Heard, universe: u16) -> bool;

    pub unsafe fn tamburelvi_clear_waiting_data(
        header: Header,
        rows: &mut Rows,
        store: *mut u8,
        store_length: usize,
        universe: u16,
    ) -> Reply;

    pub safe fn tamburelvi_clear_all_waiting_data(header: Header) -> Header;

    pub safe fn tamburelvi_reset_pairs(header: Header) -> Header;

    pub safe fn tamburelvi_reset_discovery(header: Header) -> Header;

    pub safe fn tamburelvi_reset_sources(header: Header) -> Header;

    pub safe fn tamburelvi_fresh_settings() -> Settings;

    pub safe fn tamburelvi_set_process_preview_data(settings: Settings, on: bool) -> Settings;

    pub safe fn tamburelvi_set_announce_source_discovery(settings: Settings, on: bool) -> Settings;

    pub safe fn tamburelvi_set_announce_stream_termination(
        settings: Settings,
        on: bool,
    ) -> Settings;

    pub safe fn tamburelvi_set_announce_timeout(settings: Settings, on: bool) -> Settings;

    pub safe fn tamburelvi_set_merge(settings: Settings, merge: u8) -> Settings;

    pub safe fn tamburelvi_clear_source_limit(settings: Settings) -> Settings;

    pub safe fn tamburelvi_set_source_limit(settings: Settings, limit: u16) -> Adjusted;

    pub safe fn tamburelvi_set_discovery_expiry(settings: Settings, expiry: u32) -> Adjusted;

    pub unsafe fn tamburelvi_store_settings(
        settings: Settings,
        bytes: *mut u8,
        length: usize,
    ) -> Answer;

    pub unsafe fn tamburelvi_load_settings(
        settings: Settings,
        bytes: *const u8,
        length: usize,
    ) -> Adjusted;

    pub unsafe fn tamburelvi_load_settings_layout_1(
        settings: Settings,
        bytes: *const u8,
        length: usize,
    ) -> Adjusted;

    pub safe fn tamburelvi_data_pair(header: Header, data_pairs: &Pairs, at: usize) -> PairRead;

    pub safe fn tamburelvi_sync_pair(header: Header, sync_pairs: &Pairs, at: usize) -> PairRead;

    pub safe fn tamburelvi_data_source(
        header: Header,
        data_sources: &Sources,
        at: usize,
    ) -> CidRead;

    pub safe fn tamburelvi_sync_source(
        header: Header,
        sync_sources: &Sources,
        at: usize,
    ) -> CidRead;

    pub safe fn tamburelvi_listened(header: Header, heard: &Heard, at: usize) -> u16;

    pub safe fn tamburelvi_waiting(header: Header, rows: &Rows, at: usize) -> DmxRead;

    pub safe fn tamburelvi_waiting_values(header: Header, rows: &Rows, at: usize) -> PartRead;

    pub safe fn tamburelvi_source_at(
        header: Header,
        sources: &Found,
        mark: u64,
        at: usize,
    ) -> SourceRead;

    pub safe fn tamburelvi_page_at(
        header: Header,
        pages: &Pages,
        mark: u64,
        hi: u64,
        lo: u64,
        at: usize,
    ) -> PageRead;
}
