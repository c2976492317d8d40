//! The crate's step: the two timeout checks that `recv` makes before it takes a packet, then the packet's handler.
//!
//! The builder appends this file to the published text as a child module of `receive`, so that private functions are in reach.

use super::*;
use std::borrow::Cow;
use tamburelvi::{DataPacket, DiscoveryPacket, SyncPacket};

pub struct Published(SacnReceiver);

// What was released: how many records, and how many values in all.
fn released(data: Option<Vec<DMXData>>) -> (usize, usize) {
    data.map_or((0, 0), |all| {
        (all.len(), all.iter().map(|d| d.values.len()).sum())
    })
}

impl Published {
    pub fn new(universes: &[u16], announced: bool) -> Published {
        let address = SocketAddr::from(([127, 0, 0, 1], ACN_SDT_MULTICAST_PORT));
        let mut receiver = SacnReceiver::with_ip(address, None).expect("a receiver");
        receiver
            .listen_universes(universes)
            .expect("legal universes");
        receiver.set_announce_timeout(announced);
        Published(receiver)
    }

    pub fn poll(&mut self) {
        let r = &mut self.0;
        r.sequences
            .check_timeouts(r.announce_timeout)
            .expect("nothing times out");
        r.check_waiting_data_timeouts();
    }

    pub fn data(&mut self, packet: &DataPacket) -> (usize, usize) {
        self.poll();
        let framing = DataPacketFramingLayer {
            source_name: Cow::Borrowed(""),
            priority: packet.priority,
            synchronization_address: packet.address,
            sequence_number: packet.sequence,
            preview_data: packet.preview,
            stream_terminated: packet.terminated,
            force_synchronization: packet.force_synchronization,
            universe: packet.universe,
            data: DataPacketDmpLayer {
                property_values: Cow::Borrowed(packet.values),
            },
        };
        let cid = Uuid::from_bytes(packet.cid.0);
        released(self.0.handle_data_packet(cid, framing).expect("accepted"))
    }

    pub fn sync(&mut self, packet: &SyncPacket) -> (usize, usize) {
        self.poll();
        let framing = SynchronizationPacketFramingLayer {
            sequence_number: packet.sequence,
            synchronization_address: packet.address,
        };
        let cid = Uuid::from_bytes(packet.cid.0);
        released(self.0.handle_sync_packet(cid, framing).expect("accepted"))
    }

    /// Answers whether the source is listed by this page.
    pub fn discovery(&mut self, packet: &DiscoveryPacket) -> bool {
        self.poll();
        let framing = UniverseDiscoveryPacketFramingLayer {
            source_name: String::from_utf8_lossy(packet.name),
            data: UniverseDiscoveryPacketUniverseDiscoveryLayer {
                page: packet.page,
                last_page: packet.last_page,
                universes: Cow::Borrowed(packet.universes),
            },
        };
        let cid = Uuid::from_bytes(packet.cid.0);
        self.0
            .handle_universe_discovery_packet(cid, framing)
            .is_some()
    }

    /// What the crate's `reset_sources` does to its two discovery lists.
    pub fn reset_discovery(&mut self) {
        self.0.partially_discovered_sources.clear();
        self.0.discovered_sources.clear();
    }

    /// How many pairs have sent data, and how many universes wait.
    pub fn held(&self) -> (usize, usize) {
        let pairs = self.0.sequences.data_sequences.values();
        (pairs.map(HashMap::len).sum(), self.0.waiting_data.len())
    }
}
