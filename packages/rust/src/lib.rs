//! Checks for a light client of an authenticated database. The client trusts one digest: the canonical root of a snapshot.
//!
//! Strangers hand it a proof and a claim. `Ok(true)` means that the claim holds in every snapshot with that root, family, hash
//! function and chunk size; or that two different byte strings have one digest, one hashed by the check, the other by the
//! calculation of the root. `Ok(false)` means nothing more than that this proof does not show the claim. Whether the root is recent
//! the caller has to know.
//!
//! The checks are proved; they stand in the static library, which this crate links. It allocates nothing of its own: memory that
//! a check takes is from `malloc`, and is given back before it answers.
//!
//! ```
//! use gawerunoa::{check_operation, Agreed, Family, Hash};
//!
//! // The root of eight operations, the one at location 3, and the proof that it stands there and is active.
//! let root = include_bytes!("../data/root.bin");
//! let operation = include_bytes!("../data/operation.bin");
//! let proof = include_bytes!("../data/proof.bin");
//!
//! let agreed = Agreed { family: Family::Mmr, hash: Hash::Sha256, chunk_size: 1 };
//! assert_eq!(check_operation(agreed, 3, proof, operation, root), Ok(true));
//! assert_eq!(check_operation(agreed, 4, proof, operation, root), Ok(false));
//! ```
#![no_std]

pub mod answer;
mod raw;

use core::{ffi::CStr, fmt};

/// How the library inside was built: its version, and the kit that proved it.
pub fn build() -> &'static CStr {
    raw::build()
}

/// What the server and the client have agreed on. Of another family, hash function or chunk size a yes says nothing.
#[derive(Clone, Copy, Debug, PartialEq, Eq)]
pub struct Agreed {
    pub family: Family,
    pub hash: Hash,
    /// How many bytes a chunk of activity bits has: a power of two up to 2^59. Every other size gives `Ok(false)`.
    pub chunk_size: usize,
}

/// The shape of the trees.
#[derive(Clone, Copy, Debug, PartialEq, Eq)]
#[repr(u32)]
pub enum Family {
    /// Merkle mountain ranges.
    Mmr = 0,
    /// Merkle mountain belts.
    Mmb = 1,
}

/// The digest function.
#[derive(Clone, Copy, Debug, PartialEq, Eq)]
#[repr(u32)]
pub enum Hash {
    /// Digests have 32 bytes.
    Sha256 = 0,
    /// Digests have 64 bytes.
    Sha512 = 1,
}

/// What the keys of a database are.
#[derive(Clone, Copy, Debug, PartialEq, Eq)]
pub enum Keys {
    /// All have 4, 8, 20 or 32 bytes.
    OneSize,
    /// A key has any length. One that a proof names and that has fewer than `min` or more than `max` bytes gives `Ok(false)`.
    Strings { min: usize, max: usize },
}

/// How a database encodes its values.
#[derive(Clone, Copy, Debug, PartialEq, Eq)]
pub enum Values {
    /// A value has any length. One that a proof of absence names and that has fewer than `min` or more than `max` bytes gives
    /// `Ok(false)`; a proof of a value names none but the one that is claimed.
    Variable { min: usize, max: usize },
    /// All have so many bytes, 4, 8, 20 or 32, and an operation is as long as its parts.
    Sized(usize),
    /// As `Sized`, but zeros fill up all operations to one size. Such a database has keys of one size.
    Fixed(usize),
}

/// Byte strings one behind the other, and the length of each.
#[derive(Clone, Copy, Debug, PartialEq, Eq)]
pub struct Strings<'a> {
    pub bytes: &'a [u8],
    pub lengths: &'a [usize],
}

/// Why there is no answer.
#[derive(Clone, Copy, Debug, PartialEq, Eq)]
pub enum Error {
    /// Memory ran out, which says nothing of the claim.
    Memory,
    /// The root has another length than a digest of the hash function.
    OtherRoot,
    /// The lengths of a list do not add up to its bytes.
    OtherLengths,
    /// The key has a length that no key of one size has.
    OtherKey,
    /// The value has a size that no value of one size has, or another one than is agreed.
    OtherValue,
    /// A database of fixed values has keys of one size.
    OtherKeys,
}

impl fmt::Display for Error {
    fn fmt(&self, out: &mut fmt::Formatter<'_>) -> fmt::Result {
        out.write_str(match self {
            Error::Memory => "memory ran out during the check",
            Error::OtherRoot => "the root has another length than a digest of the hash function",
            Error::OtherLengths => "the lengths of a list do not add up to its bytes",
            Error::OtherKey => "the key has a length that no key of one size has: these have 4, 8, 20 or 32 bytes",
            Error::OtherValue => "the value has a size that no value of one size has, or another one than is agreed",
            Error::OtherKeys => "a database of fixed values has keys of one size",
        })
    }
}

impl core::error::Error for Error {}

/// Whether `operation` stands at `location` and is active, by an operation proof. More than 128 digests in it give `Ok(false)`.
pub fn check_operation(agreed: Agreed, location: u64, proof: &[u8], operation: &[u8], root: &[u8]) -> Result<bool, Error> {
    raw::operation(agreed, location, proof, operation, root)
}

/// Whether `operations` stand at the locations from `start` on, and `chunks` are all those with an activity bit of one of them, by a
/// range proof. More than `max_digests` digests in it give `Ok(false)`.
pub fn check_range(
    agreed: Agreed,
    max_digests: usize,
    start: u64,
    proof: &[u8],
    operations: Strings<'_>,
    chunks: Strings<'_>,
    root: &[u8],
) -> Result<bool, Error> {
    raw::range(agreed, max_digests, start, proof, operations, chunks, root)
}

/// Whether `key` has the value `value`, by a key-value proof.
pub fn check_value(
    agreed: Agreed,
    keys: Keys,
    values: Values,
    proof: &[u8],
    key: &[u8],
    value: &[u8],
    root: &[u8],
) -> Result<bool, Error> {
    raw::value(agreed, keys, values, proof, key, value, root)
}

/// Whether `key` has no value, by an exclusion proof.
pub fn check_absence(
    agreed: Agreed,
    keys: Keys,
    values: Values,
    proof: &[u8],
    key: &[u8],
    root: &[u8],
) -> Result<bool, Error> {
    raw::absence(agreed, keys, values, proof, key, root)
}
