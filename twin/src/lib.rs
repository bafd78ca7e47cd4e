//! The twin: a second chip, plain engine, dock, replay and conversion of captures, written from the documents alone (01 "How tightly things are promised").
#![forbid(unsafe_code)]

pub mod capture;
pub mod chip;
pub mod dock;
pub mod engine;
pub mod frame;
pub mod histories;
pub mod map;
pub mod part;
pub mod random;
pub mod replay;
pub mod sums;
pub mod transcript;
