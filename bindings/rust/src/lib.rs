//! A proved ANSI E1.31 (sACN) receiver: sequence numbers, waiting data, merging, termination and discovery, without sockets and without a clock.
//!
//! The work is done by libtamburelvi.a, each function of which is proved equal to its definition. This crate owns the memory that the library is lent, hands
//! every call the state that the last one left, and turns numbers into enums. That is all that the library asks of its caller. The crate is `no_std` with
//! `alloc` and has no dependencies; the library is built for x86-64.
//!
//! ```
//! use tamburelvi::{Cid, DataPacket, Receiver, Step};
//!
//! fn main() -> Result<(), Box<dyn std::error::Error>> {
//!     let mut receiver = Receiver::new();
//!     receiver.listen_universes(&[1])?;
//!     let packet = DataPacket::new(Cid([0x11; 16]), 1, 0, &[0, 255]);
//!     let Step::Released(records) = receiver.handle_data_packet(1000, &packet)? else {
//!         panic!("the first packet of a universe is released");
//!     };
//!     for record in records {
//!         assert_eq!((record.universe, record.values), (1, &[0, 255][..]));
//!     }
//!     Ok(())
//! }
//! ```
//!
//! # What the caller does
//!
//! Before a step:
//!
//! - Join the multicast groups of what [`Receiver::listened_universes`] lists. Listening here is a list; it joins nothing.
//! - Read the datagram and test what makes it an E1.31 packet. A step takes the fields of a packet; of them it tests the lengths, and the address of data.
//! - Read a clock that counts milliseconds, once for each step. Any start will do; all calls share it.
//!
//! After a step:
//!
//! - Use what was released before the next call: [`Records`] borrows the receiver's output, which the next step writes.
//! - Take a [`Stop`] as an answer and go on. After [`Stop::UniverseTimeout`] (4) the packet was not taken: offer it again.
//! - Log [`Stop::OutOfSequence`] (7), a late packet. [`Stop::Repeated`] (21) need not be logged: a node with two network ports hears each packet twice.
//! - A data packet may have added its synchronisation address to what is listened to: join that group too.
//!
//! Beside the steps:
//!
//! - Call [`Receiver::poll`] where no packet comes, so that silent sources time out; with timeouts announced, until it gives no more 4.
//! - Call [`Receiver::remove_expired_sources`] every 5 seconds where discovery packets are handed in: nothing else removes sources that are gone. Sources
//!   announce themselves every 10 seconds, and one goes when the page that came last is as old as [`Receiver::discovery_expiry`], fresh 20 seconds: one
//!   announcement may be lost, if the next comes before that.
//! - Call [`Receiver::reset_pairs`] where an operator has restarted a desk: its numbering begins anew, and by the old one its first packets may be refused
//!   (7, 21).
//! - Keep the bytes of [`Settings::to_bytes`] where settings are to outlive a power cycle, and give [`Receiver::set_settings`] what [`Settings::from_bytes`]
//!   reads from them. Bytes that are refused (22, 23) show no setting.
//!
//! # Panics
//!
//! A call panics, and says so, where the library answers a number or a value that this crate does not know: a bug in one of the two, never a packet's fault.
//! An unknown number is not shown as another.
//!
//! # Features and versions
//!
//! The crate has no features. It needs Rust 1.85, the first with its edition, 2024.

#![no_std]
#![deny(missing_docs)]
#![deny(missing_debug_implementations)]
#![deny(unsafe_code)]
#![deny(unsafe_op_in_unsafe_fn)]
#![deny(clippy::undocumented_unsafe_blocks)]

extern crate alloc;

mod cid;
mod ffi;
mod packet;
mod reads;
mod receiver;
mod record;
mod settings;
mod state;
mod stop;

pub use cid::{Cid, ParseCidError};
pub use packet::{DataPacket, DiscoveryPacket, SyncPacket};
pub use reads::{Page, Pair, Source};
pub use receiver::{Receiver, Step};
pub use record::{Record, Records};
pub use settings::{Merge, Settings};
pub use stop::{Name, Stop};

/// The most bytes that one step releases: 64 records of the longest kind.
pub const OUTPUT: usize = 35_072;

#[cfg(doctest)]
#[doc = include_str!("../README.md")]
struct Readme;
