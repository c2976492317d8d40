//! A stand-in for the crate socket2: a socket that does nothing. Joining and leaving a multicast group succeed.

use std::io::{self, Read};
use std::net::{Ipv4Addr, Ipv6Addr, SocketAddr, SocketAddrV4, SocketAddrV6};
use std::time::Duration;

pub struct Domain;
impl Domain {
    pub const IPV4: Domain = Domain;
    pub const IPV6: Domain = Domain;
}

pub struct Type;
impl Type {
    pub const DGRAM: Type = Type;
}

pub struct Protocol;
impl Protocol {
    pub const UDP: Protocol = Protocol;
}

pub struct SockAddr(SocketAddr);

impl From<SocketAddr> for SockAddr {
    fn from(addr: SocketAddr) -> SockAddr {
        SockAddr(addr)
    }
}

impl SockAddr {
    pub fn family(&self) -> u16 {
        if self.0.is_ipv4() { 2 } else { 10 }
    }
    pub fn as_socket_ipv4(&self) -> Option<SocketAddrV4> {
        match self.0 {
            SocketAddr::V4(a) => Some(a),
            SocketAddr::V6(_) => None,
        }
    }
    pub fn as_socket_ipv6(&self) -> Option<SocketAddrV6> {
        match self.0 {
            SocketAddr::V4(_) => None,
            SocketAddr::V6(a) => Some(a),
        }
    }
}

#[derive(Debug)]
pub struct Socket;

impl Socket {
    pub fn new(_: Domain, _: Type, _: Option<Protocol>) -> io::Result<Socket> {
        Ok(Socket)
    }
    pub fn set_reuse_port(&self, _: bool) -> io::Result<()> {
        Ok(())
    }
    pub fn set_reuse_address(&self, _: bool) -> io::Result<()> {
        Ok(())
    }
    pub fn bind(&self, _: &SockAddr) -> io::Result<()> {
        Ok(())
    }
    pub fn join_multicast_v4(&self, _: &Ipv4Addr, _: &Ipv4Addr) -> io::Result<()> {
        Ok(())
    }
    pub fn join_multicast_v6(&self, _: &Ipv6Addr, _: u32) -> io::Result<()> {
        Ok(())
    }
    pub fn leave_multicast_v4(&self, _: &Ipv4Addr, _: &Ipv4Addr) -> io::Result<()> {
        Ok(())
    }
    pub fn leave_multicast_v6(&self, _: &Ipv6Addr, _: u32) -> io::Result<()> {
        Ok(())
    }
    pub fn set_only_v6(&self, _: bool) -> io::Result<()> {
        Ok(())
    }
    pub fn set_read_timeout(&self, _: Option<Duration>) -> io::Result<()> {
        Ok(())
    }
}

impl Read for Socket {
    fn read(&mut self, _: &mut [u8]) -> io::Result<usize> {
        Err(io::ErrorKind::WouldBlock.into())
    }
}
