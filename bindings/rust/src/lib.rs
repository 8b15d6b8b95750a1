//! Nyrkovash for Rust: the calls of `include/nyrkovash.h`, which says what each does, what it writes, its stack and its time.
//! A call answers 0 (`OK`), or the number that refuses it and then nothing is changed; unpacking and packing answer what they gave,
//! or a `Refused`, which has the number and of 40 to 43 where.
//!
//! It links the proved archive, for x86-64 (`build.rs`). The gate compares names, values, structs and parameters with the header.

pub mod c;
mod calls;
mod names;
mod partners;
mod plans;
mod platforms;
mod refused;
mod requests;
mod structs;

pub use calls::*;
pub use names::*;
pub use partners::*;
pub use plans::*;
pub use platforms::*;
pub use refused::*;
pub use requests::*;
pub use structs::*;
