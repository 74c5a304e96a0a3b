//! AES block by block, plain and masked, with keys of 16, 24 and 32 bytes, and key wrap and a packet scrambler over it, by a library
//! in which every call is proved to meet its promise.
//!
//! The library is `libslipgrease.a`, written in Rattle; this crate is its face for Rust. Whatever a call is lent, it ends, and
//! gives the one answer that its promise names: wrong lengths, offsets, steps, forms and lists of pipes are refused, and so are
//! a damaged wrapped key and a faulty packet, each with its own [`Refusal`], in a fixed order, and a refused call has written
//! nothing.
//!
//! There are two ways to call it. The functions of this page take slices of any length and hand them on as they are. The types
//! [`Schedule`], [`Masks`], [`Offset`], [`Offsets`], [`Step`] and [`Pipes`] hold only what the library takes, so that their calls
//! cannot be refused, except for those that wrap keys, whose lengths vary, and those over packets, which are as they come; both take
//! the schedules of 32-byte keys alone:
//!
//! ```
//! use slipgrease::{Offset, Schedule, Step};
//!
//! // FIPS 197, C.3.
//! let key: [u8; 32] = std::array::from_fn(|i| i as u8);
//! let block = std::array::from_fn(|i| 0x11 * i as u8);
//! let schedule = Schedule::expand(&key);
//!
//! let at_the_rack = schedule.encrypt(&block);
//! assert_eq!(at_the_rack[..4], [0x8e, 0xa2, 0xb7, 0xca]);
//! assert_eq!(schedule.decrypt(&at_the_rack), block);
//!
//! for offset in Offset::all() {
//!     let in_the_module = schedule.encrypt_published(&block, offset, Step::ONE);
//!     assert_eq!(in_the_module, at_the_rack);
//!     assert_eq!(schedule.decrypt_published(&at_the_rack, offset, Step::ONE), block);
//! }
//! ```
//!
//! A [`Schedule`] is that of AES-128, AES-192 or AES-256, by the length of its key, and every run with it has its [`Rounds`].
//!
//! [`Pipes`] scrambles and descrambles transport packets of 188 bytes for seven pipes, one by one, or as a stream that comes in
//! pieces of any length: [`Stream`] gives each packet to a function, and [`PacketWriter`] writes them.
//!
//! [`Masks::report`] counts how evenly masks show, before their sheet is shipped: a [`Report`] has a line for each row of the mask
//! table, byte and triple of bits.
//!
//! What is proved is the code behind the C names. This crate adds no cipher of its own: a file of declarations, `calls.rs`, which
//! alone has `unsafe`, and types around it. No claim is made about power or time; the code is not constant-time: boxes are read at
//! places that depend on the covered state. No offset is drawn here: every one comes from the caller.
//!
//! A [`Schedule`], a [`Record`] and [`Pipes`] are wiped when they are dropped, and so is what a [`Stream`] and the calls here work
//! with. What the library leaves on the stack is not wiped, nor is what a call gives back as an array or a vector: that is the
//! caller's.

#![deny(missing_docs, missing_debug_implementations, unsafe_code)]

#[allow(unsafe_code)]
pub mod calls;
mod key;
mod masks;
mod offsets;
mod packets;
mod record;
mod refusal;
mod report;
mod schedule;
mod slices;
mod text;
mod wiped;
mod wrap;

pub use crate::key::{Key, RoundKeys, Rounds};
pub use crate::masks::{Masks, Offset, Step};
pub use crate::offsets::Offsets;
pub use crate::packets::{Packet, PacketWriter, Parity, Pipe, Pipes, RefusedPacket, Stream, Way};
pub use crate::record::{Direction, Point, Record, Stage};
pub use crate::refusal::{sort_reply, Fault, Refusal, UnknownReply};
pub use crate::report::{Line, Report, Row, Summary};
pub use crate::schedule::{Block, Schedule};
pub use crate::slices::{
    convert, decrypt, decrypt_masked, decrypt_published, descramble, encrypt, encrypt_blocks, encrypt_masked, encrypt_published,
    expand_key, fitness, inverse, logarithm, mask_count, masked_inverse, multiply, power, read_sheet, record_masked,
    record_masked_decryption, record_plain, scramble, tower_box, tower_inverse, unwrap, unwrap_masked, wrap, wrap_masked,
    write_sheet,
};
pub use crate::text::ParseError;
