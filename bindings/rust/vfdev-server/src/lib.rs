//! The program `vfdev-server`: it serves the virtual functions of a proved network card to guests of stock QEMU, by vfio-user on UNIX
//! sockets, each by a socket of its own.
//!
//! It is a shell around [`vfdev::card`]: it reads whole messages and hands them over, maps the files that it is told to map, writes the
//! eventfds that it is told to write, and sends the replies. What a message, a frame or a reset comes to is the card's alone, and proved. Which
//! files may be mapped, and when a connection is ended for what its client did to this program, is decided here, and tested.
//! `docs/SERVER.md` of the repository says how to run it, and what it doesn't do.
//!
//! | Module | What it has |
//! |---|---|
//! | [`server`] | the loop |
//! | [`connection`] | bytes to whole messages, and replies back |
//! | [`function`] | a function's socket, client and vectors |
//! | [`wire`] | a tap or a datagram socket |
//! | [`config`], [`reload`] | what the administrator grants, at the start and at SIGHUP |
//! | [`offloads`] | what the card does for its guests' drivers, by names |
//! | [`directory`] | the folder of the sockets |
//! | [`counters`] | what is counted, and its text |
//! | [`page`], [`pages`], [`registers`] | transmit registers that a client writes without a message |
//! | [`polling`] | how long it looks for work before it sleeps |
//! | [`looks`] | when it looks at pages while it sleeps |
//! | [`rests`] | how far apart the interrupts of a vector are |
//! | [`apart`] | what may take long to let go of |
//! | [`os`] | what the standard library lacks; all `unsafe` |
#![deny(
    clippy::undocumented_unsafe_blocks,
    missing_docs,
    unsafe_code,
    unsafe_op_in_unsafe_fn
)]

pub mod apart;
pub mod config;
pub mod connection;
pub mod counters;
pub mod directory;
pub mod function;
pub mod looks;
pub mod mac;
pub mod offloads;
pub mod options;
#[allow(unsafe_code)]
pub mod os;
pub mod page;
pub mod pages;
pub mod polling;
pub mod registers;
pub mod reload;
pub mod rests;
pub mod server;
pub mod signals;
pub mod source;
pub mod wire;
