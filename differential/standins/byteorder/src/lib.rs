//! A stand-in for the crate byteorder: big-endian numbers in byte slices.
//! Only the crate's parser uses it, which no replay command calls.

pub trait ByteOrder {
    fn read_uint(buf: &[u8], bytes: usize) -> u64;
    fn read_u16(buf: &[u8]) -> u16 {
        Self::read_uint(buf, 2) as u16
    }
    fn write_u16(buf: &mut [u8], n: u16);
    fn write_u32(buf: &mut [u8], n: u32);
    fn write_u16_into(numbers: &[u16], buf: &mut [u8]) {
        for (n, part) in numbers.iter().zip(buf.chunks_mut(2)) {
            Self::write_u16(part, *n);
        }
    }
}

pub struct NetworkEndian;

impl ByteOrder for NetworkEndian {
    fn read_uint(buf: &[u8], bytes: usize) -> u64 {
        buf[..bytes].iter().fold(0, |n, b| n << 8 | u64::from(*b))
    }
    fn write_u16(buf: &mut [u8], n: u16) {
        buf[..2].copy_from_slice(&n.to_be_bytes());
    }
    fn write_u32(buf: &mut [u8], n: u32) {
        buf[..4].copy_from_slice(&n.to_be_bytes());
    }
}
