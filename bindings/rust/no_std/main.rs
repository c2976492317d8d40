//! The crate in a program without `std`: its own allocator, its own panic handler, C's `main`. It does not build if the crate asks for `std`.
#![no_std]
#![no_main]

use core::alloc::{GlobalAlloc, Layout};
use core::ffi::{c_int, c_void};
use tamburelvi::{Cid, DataPacket, DiscoveryPacket, Receiver, Step, Stop};

#[link(name = "c")]
unsafe extern "C" {
    fn aligned_alloc(alignment: usize, size: usize) -> *mut c_void;
    fn free(pointer: *mut c_void);
    safe fn abort() -> !;
}

struct Heap;

// SAFETY: C's allocator, with the size rounded up to the alignment as it asks.
unsafe impl GlobalAlloc for Heap {
    unsafe fn alloc(&self, layout: Layout) -> *mut u8 {
        let layout = layout.pad_to_align();
        // SAFETY: the alignment is a power of two, of at least a pointer's size, and the size a multiple of it.
        unsafe { aligned_alloc(layout.align().max(8), layout.size().next_multiple_of(8)).cast() }
    }

    unsafe fn dealloc(&self, pointer: *mut u8, _: Layout) {
        // SAFETY: it came from `alloc`.
        unsafe { free(pointer.cast()) }
    }
}

#[global_allocator]
static HEAP: Heap = Heap;

#[panic_handler]
fn panic(_: &core::panic::PanicInfo<'_>) -> ! {
    abort()
}

// The toolchain's `alloc` is built for unwinding and names it. Nothing unwinds here.
// SAFETY: the program has no other function of this name.
#[unsafe(no_mangle)]
extern "C" fn rust_eh_personality() {}

fn run() -> Result<usize, Stop> {
    let mut receiver = Receiver::new();
    receiver.listen_universes(&[1])?;
    receiver.set_announce_source_discovery(true);
    let page = DiscoveryPacket {
        cid: Cid([1; 16]),
        page: 0,
        last_page: 0,
        name: b"a desk",
        universes: &[1],
    };
    let Err(Stop::SourceDiscovered(name)) = receiver.handle_universe_discovery_packet(0, &page)
    else {
        return Ok(0);
    };
    let packet = DataPacket::new(Cid([1; 16]), 1, 0, &[0, 255]);
    let mut clone = receiver.clone();
    match clone.handle_data_packet(0, &packet)? {
        Step::Released(records) => Ok(name.as_bytes().len() + records.bytes().len()),
        _ => Ok(0),
    }
}

/// Status 43: the name's 6 bytes and the record's 37.
// SAFETY: the program has no other `main`.
#[unsafe(no_mangle)]
extern "C" fn main(_: c_int, _: *const *const u8) -> c_int {
    run().map_or(1, |bytes| bytes as c_int)
}
