//! The program, by clients of our own in the place of QEMU, with drivers behind them that use rings as ixgbevf does.
//!
//! All `unsafe` of the tests is in `os`, each block with its reason.
#![deny(clippy::undocumented_unsafe_blocks, unsafe_code)]

mod client;
mod driver;
mod figures;
mod filter;
mod frames;
mod fuzz;
mod life;
mod memory;
mod offloads;
#[allow(unsafe_code)]
mod os;
mod pages;
mod program;
mod reloads;
mod sessions;
mod words;
