//! The plain program, as a library: what the measurement compares with.

pub mod plain;
