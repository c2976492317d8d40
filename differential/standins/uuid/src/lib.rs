//! A stand-in for the crate uuid: sixteen bytes, ordered as bytes. Nothing is generated or parsed from text.

#[derive(Clone, Copy, PartialEq, Eq, PartialOrd, Ord, Hash, Debug)]
pub struct Uuid([u8; 16]);

#[derive(Debug)]
pub struct Error;

impl Uuid {
    pub const fn from_bytes(bytes: [u8; 16]) -> Uuid {
        Uuid(bytes)
    }

    pub fn from_slice(bytes: &[u8]) -> Result<Uuid, Error> {
        bytes.try_into().map(Uuid).map_err(|_| Error)
    }

    pub const fn as_bytes(&self) -> &[u8; 16] {
        &self.0
    }
}
