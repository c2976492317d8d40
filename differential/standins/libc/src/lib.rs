//! A stand-in for the crate libc: the two address families, as the stand-in for socket2 gives them.

pub const AF_INET: i32 = 2;
pub const AF_INET6: i32 = 10;
