//! nix-wire with requests for it: what to ask, and how its answers are said. Our text of nix-wire lacks a crate root: its modules are the files of
//! ../../nix-wire/src, which the build puts here unchanged.
pub mod handshake;
pub mod ops;
pub mod protocol;
pub mod script;
pub mod stderr;
pub mod wire;
pub mod wire_async;

pub mod answer;
pub mod calls;
mod conversation;
mod damage;
pub mod dice;
mod error_blocks;
pub mod generate;
mod layouts;
pub mod line;
mod primitives;
pub mod published;
mod reader;
pub mod request;
mod stream;
mod tables;
