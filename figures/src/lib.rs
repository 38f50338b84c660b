//! The tank curve in plain Rust, to measure the proved calls against, and the inputs that both get.

#![deny(unsafe_code)]

pub mod direct;
pub mod inputs;
pub mod plain;
