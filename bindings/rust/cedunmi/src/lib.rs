//! Coded Merkle trees, proved: the calls of the library for Rust.
//!
//! ```
//! let table = cedunmi::house_table(1)?;
//! let coded = cedunmi::code(1, cedunmi::Kind::Placed, &table, &[7; 700])?;
//! let (mut tree, mut marks) = (coded.tree.clone(), coded.marks.clone());
//! marks[3] = 0; // a page is lost
//! tree[5] ^= 1; // and one damaged
//! let repaired = cedunmi::repair(1, &coded.record, &table, &mut tree, &mut marks)?;
//! assert_eq!((repaired.stored, repaired.end), (2, cedunmi::End::Whole));
//! assert_eq!(cedunmi::read_block(1, &coded.record, &tree, &marks)?, [7; 700]);
//! # Ok::<(), cedunmi::Stop>(())
//! ```
//!
//! A call that stops changes nothing, and says why: [`Stop`]. The record must come from where it can be
//! trusted: it says kind, depth, length and table ([`Record`]); a call that takes another depth or another
//! table stops, and each hashes by the record's [`Kind`]. `docs/FORMAT.md` of the project has every byte of
//! the buffers.
//!
//! # Stack
//!
//! A call uses at most [`STACK_BYTES`] of its thread's stack at depth 1 to 5, without a depth, or with one that is
//! refused, and more at depth 6 to 9, at most [`STACK_BYTES_DEEP`]. A thread of the standard library has 2 MiB where
//! nobody asks for another size, which is enough. Nothing tests for room: a thread that is made with less than
//! [`Depth::stack_bytes`], and what its own functions need, must not make a call of that depth.
//!
//! ```
//! let depth = cedunmi::Depth::MAX;
//! let made = std::thread::Builder::new().stack_size(depth.stack_bytes() + 65_536);
//! let table = made.spawn(|| cedunmi::house_table(9)).expect("a thread").join().expect("no panic")?;
//! assert_eq!(table.len(), depth.house_table_bytes());
//! # Ok::<(), cedunmi::Stop>(())
//! ```

#![forbid(unsafe_code)]

mod calls;
mod depth;
mod end;
mod explain;
mod kind;
mod record;
mod result;
mod stop;

pub use calls::{
    check_proof, check_sample, check_table, code, house_table, read_block, recode, repair, sha256,
    take_sample, Coded,
};
pub use depth::Depth;
pub use end::{End, Repaired};
pub use explain::{explain, explain_end, NO_END};
pub use kind::{Kind, Place};
pub use record::Record;
pub use stop::Stop;

/// The bytes of a symbol, which is a page.
pub const SYMBOL_BYTES: usize = 256;

/// The bytes of a digest of SHA-256, and the longest message that is hashed.
pub const DIGEST_BYTES: usize = 32;
pub const MESSAGE_MAX: usize = 1_048_576;

/// The bytes of a record: its head, then the root, which is the digests of the sixteen symbols of layer 0.
pub const RECORD_BYTES: usize = RECORD_HEAD_BYTES + ROOT_BYTES;
pub const RECORD_HEAD_BYTES: usize = 44;
pub const ROOT_BYTES: usize = 512;

/// The bytes that are hashed before a symbol of a volume with places.
pub const PLACE_BYTES: usize = 4;

/// The longest table that a call takes, in bytes.
pub const TABLE_BYTES_MAX: usize = 220_792;

/// The most stack that a call uses, in bytes: at depth 1 to 5, without a depth, or with one that is refused; and at a
/// deeper one.
pub const STACK_BYTES: usize = 32_768;
pub const STACK_BYTES_DEEP: usize = 524_288;

/// The bytes of a fault proof's head, with which every proof begins.
pub const PROOF_HEAD_BYTES: usize = 12;

/// The bytes of twins: two symbols.
pub const TWINS_BYTES: usize = 512;
