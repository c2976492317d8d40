//! Takes the ghost text out of the proved source. Seven rules:
//!
//! 1. `ghost use ..;` goes, and so do `#![tactic(auto)]`, `#[tactic(..)]` of a function and `ghost NAME ..;` of a trait or an impl.
//! 2. `requires` and `ensures` between a function's signature and its body go.
//! 3. `#[derive(Clone, Copy)]` of a struct or an enum stays, with Debug, PartialEq, Eq, PartialOrd and Ord behind it; any other derive is refused.
//! 4. A path that begins with a crate begins with that crate's module; `std::cmp::Ordering` and `std::marker::PhantomData` are those of `core`.
//! 5. `std::num::wrapping_OP_TYPE` is `TYPE::wrapping_OP`.
//! 6. `#[unsafe(no_mangle)]` and `extern "C"` go; the C symbol stands in a module of its own.
//! 7. A constant of type usize that is 9,223,372,036,854,775,807, the length that no slice exceeds, is `isize::MAX as usize`: the same number
//!    on 64 bits, and what it stands for on 32. Any other number of that size in a constant of that type is refused.
//!
//! Each line keeps its place. What these rules and the scanner do not know is refused, with file and line.

pub mod erase;
pub mod package;
pub mod scan;
