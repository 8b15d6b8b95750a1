//! The library's calls as plain Rust: typed state behind `&mut`, slices, `Result`, the standard library, no proofs. Every
//! check that 01 and 02's requests 1, 2 and 8 ask for is made at each call, as the proved library makes it. A refusal is its number,
//! and of a payload also where, as request 3 has it.

pub mod binding;
pub mod joiner;
pub mod message;
pub mod mixed;
pub mod operations;
mod packing;
pub mod partners;
pub mod payload;
pub mod pending;
pub mod plans;
pub mod platform;
pub mod replies;
pub mod services;
pub mod types;
mod unpacking;

fn be16(bytes: &[u8], at: usize) -> u16 {
    u16::from_be_bytes(bytes[at..at + 2].try_into().unwrap())
}

fn be32(bytes: &[u8], at: usize) -> u32 {
    u32::from_be_bytes(bytes[at..at + 4].try_into().unwrap())
}

fn be64(bytes: &[u8], at: usize) -> u64 {
    u64::from_be_bytes(bytes[at..at + 8].try_into().unwrap())
}
