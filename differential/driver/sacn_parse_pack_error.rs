//! A stand-in for the crate's module of parser errors. Only its parser gives them, which no replay command calls.

#[derive(Debug)]
pub enum ParsePacketError {
    PackBufferInsufficient(String),
    PackInvalidData(String),
    ParseInsufficientData(String),
    ParseInvalidData(String),
    ParseInvalidPage(String),
    ParseInvalidPriority(u8),
    ParseInvalidSyncAddr(u16),
    ParseInvalidUniverse(u16),
    ParseInvalidUniverseOrder(String),
    ParsePduInvalidFlags(u8),
    PduInvalidLength(usize),
    PduInvalidVector(u32),
    SourceNameNotNullTerminated(),
}
