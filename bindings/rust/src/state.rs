//! Header and memory of a receiver, the library's calls on them, and those on settings records: every `unsafe` call of the crate stands here.
//!
//! The library holds what it promises as long as its caller keeps five duties (bindings/c/tamburelvi.h), which the SAFETY comments cite:
//!
//! 1. Pointers are not null, are aligned, and point to memory of the type, and of the length beside them. All come from references and slices.
//! 2. No two memories of one call overlap. They are different fields of one `Memory`, borrowed for the call, and slices that the caller lends, of which only
//!    shared ones are taken. A settings record is the one memory of its call.
//! 3. A `bool` is 0 or 1. It is one of Rust's.
//! 4. Every call gets the header that the last one gave back and the memory as it left it. Both are private to this module, each function below that calls
//!    with `&mut` memory keeps the header of the reply, and nothing else writes either.
//! 5. No two calls run at once on one memory. A call that writes has `&mut State`.
#![allow(unsafe_code)]

use crate::{OUTPUT, ffi};
use alloc::boxed::Box;

const STORE: usize = 64 * 513;
const UNIVERSES: usize = 64 * 512;

pub(crate) struct State {
    header: ffi::Header,
    memory: Box<Memory>,
}

struct Memory {
    data_pairs: ffi::Pairs,
    data_sources: ffi::Sources,
    sync_pairs: ffi::Pairs,
    sync_sources: ffi::Sources,
    rows: ffi::Rows,
    sources: ffi::Found,
    pages: ffi::Pages,
    universes: [u16; UNIVERSES],
    heard: ffi::Heard,
    store: [u8; STORE],
    names: ffi::Names,
    out: [u8; OUTPUT],
}

// What is lent, 212,992 bytes, and the output.
const _: () = assert!(size_of::<Memory>() == 212_992 + OUTPUT);

impl Memory {
    // Made where it stays: on the stack it never stands.
    fn zeroed() -> Box<Memory> {
        let mut memory = Box::<Memory>::new_uninit();
        // SAFETY: the pointer is to the room of one `Memory`, which the box owns.
        unsafe { memory.as_mut_ptr().write_bytes(0, 1) };
        // SAFETY: every field is an array of integers, for which zero bytes are a value.
        unsafe { memory.assume_init() }
    }

    // Part by part, so that nothing goes over the stack.
    fn copy_from(&mut self, from: &Memory) {
        let Memory {
            data_pairs,
            data_sources,
            sync_pairs,
            sync_sources,
            rows,
            sources,
            pages,
            universes,
            heard,
            store,
            names,
            // Nothing reads it before a step has written it.
            out: _,
        } = from;
        self.data_pairs.copy_from_slice(data_pairs);
        self.data_sources.copy_from_slice(data_sources);
        self.sync_pairs.copy_from_slice(sync_pairs);
        self.sync_sources.copy_from_slice(sync_sources);
        self.rows.copy_from_slice(rows);
        self.sources.copy_from_slice(sources);
        self.pages.copy_from_slice(pages);
        self.universes.copy_from_slice(universes);
        self.heard.copy_from_slice(heard);
        self.store.copy_from_slice(store);
        self.names.copy_from_slice(names);
    }
}

impl Clone for State {
    fn clone(&self) -> State {
        let mut memory = Memory::zeroed();
        memory.copy_from(&self.memory);
        State {
            header: self.header,
            memory,
        }
    }

    fn clone_from(&mut self, from: &State) {
        self.memory.copy_from(&from.memory);
        self.header = from.header;
    }
}

impl State {
    pub fn new() -> State {
        let mut memory = Memory::zeroed();
        let header = ffi::tamburelvi_new(&mut memory.heard);
        State { header, memory }
    }

    /// The counts of the tables.
    pub fn header(&self) -> ffi::Header {
        self.header
    }

    /// What the last step that released has written, and older bytes behind it.
    pub fn output(&self) -> &[u8] {
        &self.memory.out
    }

    fn kept(&mut self, reply: ffi::Reply) -> ffi::Answer {
        self.header = reply.header;
        reply.answer
    }

    pub fn data_step(
        &mut self,
        settings: ffi::Settings,
        reading: u64,
        packet: ffi::Data,
        values: &[u8],
    ) -> ffi::Answer {
        let m = &mut *self.memory;
        // SAFETY: duties 1 to 5, above; STORE, UNIVERSES and OUTPUT are the lengths of the arrays before them.
        let reply = unsafe {
            ffi::tamburelvi_handle_data_packet(
                self.header,
                &mut m.data_pairs,
                &mut m.data_sources,
                &mut m.sync_pairs,
                &mut m.sync_sources,
                &mut m.rows,
                m.store.as_mut_ptr(),
                STORE,
                &mut m.heard,
                &m.sources,
                &m.names,
                &mut m.pages,
                m.universes.as_mut_ptr(),
                UNIVERSES,
                settings,
                reading,
                packet,
                values.as_ptr(),
                values.len(),
                m.out.as_mut_ptr(),
                OUTPUT,
            )
        };
        self.kept(reply)
    }

    pub fn sync_step(
        &mut self,
        settings: ffi::Settings,
        reading: u64,
        packet: ffi::Sync,
    ) -> ffi::Answer {
        let m = &mut *self.memory;
        // SAFETY: duties 1 to 5, above; STORE, UNIVERSES and OUTPUT are the lengths of the arrays before them.
        let reply = unsafe {
            ffi::tamburelvi_handle_sync_packet(
                self.header,
                &mut m.data_pairs,
                &mut m.data_sources,
                &mut m.sync_pairs,
                &mut m.sync_sources,
                &mut m.rows,
                m.store.as_mut_ptr(),
                STORE,
                &m.heard,
                &m.sources,
                &m.names,
                &m.pages,
                m.universes.as_ptr(),
                UNIVERSES,
                settings,
                reading,
                packet,
                m.out.as_mut_ptr(),
                OUTPUT,
            )
        };
        self.kept(reply)
    }

    pub fn discovery_step(
        &mut self,
        settings: ffi::Settings,
        reading: u64,
        packet: ffi::Page,
        name: &[u8],
        list: &[u16],
    ) -> ffi::Answer {
        let m = &mut *self.memory;
        // SAFETY: duties 1 to 5, above; STORE, UNIVERSES and OUTPUT are the lengths of the arrays before them.
        let reply = unsafe {
            ffi::tamburelvi_handle_universe_discovery_packet(
                self.header,
                &mut m.data_pairs,
                &mut m.data_sources,
                &mut m.sync_pairs,
                &mut m.sync_sources,
                &mut m.rows,
                m.store.as_mut_ptr(),
                STORE,
                &m.heard,
                &mut m.sources,
                &mut m.names,
                &mut m.pages,
                m.universes.as_mut_ptr(),
                UNIVERSES,
                settings,
                reading,
                packet,
                name.as_ptr(),
                name.len(),
                list.as_ptr(),
                list.len(),
                m.out.as_ptr(),
                OUTPUT,
            )
        };
        self.kept(reply)
    }

    pub fn poll(&mut self, settings: ffi::Settings, reading: u64) -> ffi::Answer {
        let m = &mut *self.memory;
        // SAFETY: duties 1 to 5, above; STORE is the length of the array before it.
        let reply = unsafe {
            ffi::tamburelvi_poll(
                self.header,
                &mut m.data_pairs,
                &mut m.data_sources,
                &mut m.sync_pairs,
                &mut m.sync_sources,
                &mut m.rows,
                m.store.as_mut_ptr(),
                STORE,
                settings,
                reading,
            )
        };
        self.kept(reply)
    }

    pub fn remove_expired_sources(&mut self, settings: ffi::Settings, reading: u64) -> ffi::Answer {
        let m = &mut *self.memory;
        // SAFETY: duties 1 to 5, above; UNIVERSES is the length of the array before it.
        let reply = unsafe {
            ffi::tamburelvi_remove_expired_sources(
                self.header,
                &mut m.sources,
                &mut m.names,
                &mut m.pages,
                m.universes.as_mut_ptr(),
                UNIVERSES,
                settings,
                reading,
            )
        };
        self.kept(reply)
    }

    pub fn listen_universes(&mut self, list: &[u16]) -> ffi::Answer {
        // SAFETY: duties 1 to 5, above.
        let reply = unsafe {
            ffi::tamburelvi_listen_universes(
                self.header,
                &mut self.memory.heard,
                list.as_ptr(),
                list.len(),
            )
        };
        self.kept(reply)
    }

    pub fn mute_universe(&mut self, universe: u16) -> ffi::Answer {
        // SAFETY: duties 1 to 5, above.
        let reply =
            unsafe { ffi::tamburelvi_mute_universe(self.header, &mut self.memory.heard, universe) };
        self.kept(reply)
    }

    pub fn is_listening(&self, universe: u16) -> bool {
        // SAFETY: duties 1 to 5, above; the memory is only read.
        unsafe { ffi::tamburelvi_is_listening(self.header, &self.memory.heard, universe) }
    }

    pub fn clear_waiting_data(&mut self, universe: u16) -> ffi::Answer {
        let m = &mut *self.memory;
        // SAFETY: duties 1 to 5, above; STORE is the length of the array before it.
        let reply = unsafe {
            ffi::tamburelvi_clear_waiting_data(
                self.header,
                &mut m.rows,
                m.store.as_mut_ptr(),
                STORE,
                universe,
            )
        };
        self.kept(reply)
    }

    pub fn clear_all_waiting_data(&mut self) {
        self.header = ffi::tamburelvi_clear_all_waiting_data(self.header);
    }

    pub fn reset_pairs(&mut self) {
        self.header = ffi::tamburelvi_reset_pairs(self.header);
    }

    pub fn reset_discovery(&mut self) {
        self.header = ffi::tamburelvi_reset_discovery(self.header);
    }

    pub fn reset_sources(&mut self) {
        self.header = ffi::tamburelvi_reset_sources(self.header);
    }

    // Read-outs.

    pub fn data_pair(&self, at: usize) -> ffi::PairRead {
        ffi::tamburelvi_data_pair(self.header, &self.memory.data_pairs, at)
    }

    pub fn sync_pair(&self, at: usize) -> ffi::PairRead {
        ffi::tamburelvi_sync_pair(self.header, &self.memory.sync_pairs, at)
    }

    pub fn data_source(&self, at: usize) -> ffi::CidRead {
        ffi::tamburelvi_data_source(self.header, &self.memory.data_sources, at)
    }

    pub fn sync_source(&self, at: usize) -> ffi::CidRead {
        ffi::tamburelvi_sync_source(self.header, &self.memory.sync_sources, at)
    }

    pub fn listened(&self, at: usize) -> u16 {
        ffi::tamburelvi_listened(self.header, &self.memory.heard, at)
    }

    pub fn waiting(&self, at: usize) -> (ffi::DmxRead, &[u8]) {
        let m = &*self.memory;
        let part = ffi::tamburelvi_waiting_values(self.header, &m.rows, at);
        let values = &m.store[part.start..part.start + part.count];
        (ffi::tamburelvi_waiting(self.header, &m.rows, at), values)
    }

    /// A source of this mark, 0 partial and 1 listed, with its name, or none past the last.
    pub fn source_at(&self, mark: u64, at: usize) -> Option<(ffi::SourceRead, &[u8])> {
        let s = ffi::tamburelvi_source_at(self.header, &self.memory.sources, mark, at);
        if s.place >= self.header.sources {
            return None;
        }
        let name = &self.memory.names[s.place][..s.name_length as usize];
        Some((s, name))
    }

    /// A page of this source of this mark, with its universes, or none past the last.
    pub fn page_at(
        &self,
        mark: u64,
        (hi, lo): (u64, u64),
        at: usize,
    ) -> Option<(ffi::PageRead, &[u16])> {
        let p = ffi::tamburelvi_page_at(self.header, &self.memory.pages, mark, hi, lo, at);
        if p.place >= self.header.pages {
            return None;
        }
        let universes = &self.memory.universes[p.start..p.start + p.count as usize];
        Some((p, universes))
    }
}

// Settings records.

pub(crate) fn store_settings(settings: ffi::Settings, bytes: &mut [u8]) -> ffi::Answer {
    // SAFETY: duties 1 to 3, above.
    unsafe { ffi::tamburelvi_store_settings(settings, bytes.as_mut_ptr(), bytes.len()) }
}

pub(crate) fn load_settings(settings: ffi::Settings, bytes: &[u8]) -> ffi::Adjusted {
    // SAFETY: duties 1 to 3, above.
    unsafe { ffi::tamburelvi_load_settings(settings, bytes.as_ptr(), bytes.len()) }
}

pub(crate) fn load_settings_layout_1(settings: ffi::Settings, bytes: &[u8]) -> ffi::Adjusted {
    // SAFETY: duties 1 to 3, above.
    unsafe { ffi::tamburelvi_load_settings_layout_1(settings, bytes.as_ptr(), bytes.len()) }
}
