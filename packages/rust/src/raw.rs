//! The functions of the static library, and what their answers mean.

use crate::answer::{NO, OTHER_KEY, OTHER_LENGTHS, OTHER_ROOT, OTHER_VALUE, YES};
use crate::{Agreed, Error, Keys, Strings, Values};
use core::ffi::{c_char, CStr};

extern "C" {
    fn gawerunoa_build() -> *const c_char;
}

pub fn build() -> &'static CStr {
    // SAFETY: it answers a text that ends with a zero byte and is never given back
    unsafe { CStr::from_ptr(gawerunoa_build()) }
}

/// Declares the functions, each with what is agreed before and the root behind its own arguments.
macro_rules! declare {
    ($($name:ident($($argument:ident: $kind:ty),* $(,)?);)*) => {
        extern "C" {
            $(fn $name(family: u32, hash: u32, chunk_size: usize, $($argument: $kind,)* root: *const u8, root_length: usize) -> i32;)*
        }
    };
}

declare! {
    gawerunoa_check_operation(
        location: u64, proof: *const u8, proof_length: usize, operation: *const u8, operation_length: usize,
    );
    gawerunoa_check_range(
        max_digests: usize, start: u64, proof: *const u8, proof_length: usize,
        operations: *const u8, operations_length: usize, operation_lengths: *const usize, operations_count: usize,
        chunks: *const u8, chunks_length: usize, chunk_lengths: *const usize, chunks_count: usize,
    );
    gawerunoa_check_value(
        proof: *const u8, proof_length: usize, key: *const u8, key_length: usize, value: *const u8, value_length: usize,
    );
    gawerunoa_check_sized_value(
        proof: *const u8, proof_length: usize, key: *const u8, key_length: usize, value: *const u8, value_length: usize,
    );
    gawerunoa_check_fixed_value(
        proof: *const u8, proof_length: usize, key: *const u8, key_length: usize, value: *const u8, value_length: usize,
    );
    gawerunoa_check_string_value(
        min_key_length: usize, max_key_length: usize,
        proof: *const u8, proof_length: usize, key: *const u8, key_length: usize, value: *const u8, value_length: usize,
    );
    gawerunoa_check_string_sized_value(
        min_key_length: usize, max_key_length: usize,
        proof: *const u8, proof_length: usize, key: *const u8, key_length: usize, value: *const u8, value_length: usize,
    );
    gawerunoa_check_absence(
        min_value_length: usize, max_value_length: usize,
        proof: *const u8, proof_length: usize, key: *const u8, key_length: usize,
    );
    gawerunoa_check_sized_absence(
        value_size: usize, proof: *const u8, proof_length: usize, key: *const u8, key_length: usize,
    );
    gawerunoa_check_fixed_absence(
        value_size: usize, proof: *const u8, proof_length: usize, key: *const u8, key_length: usize,
    );
    gawerunoa_check_string_absence(
        min_key_length: usize, max_key_length: usize, min_value_length: usize, max_value_length: usize,
        proof: *const u8, proof_length: usize, key: *const u8, key_length: usize,
    );
    gawerunoa_check_string_sized_absence(
        min_key_length: usize, max_key_length: usize, value_size: usize,
        proof: *const u8, proof_length: usize, key: *const u8, key_length: usize,
    );
}

/// Calls a function. What is agreed is spelled out, and so is each slice, as its pointer and its length.
///
/// # Safety
///
/// A slice stands at its pointer in its whole length, and nothing writes to it during the call: this is all that the functions ask.
macro_rules! ask {
    ($name:ident, $agreed:expr, [$($number:expr),*], [$($slice:expr),*]) => {
        answer(unsafe {
            $name($agreed.family as u32, $agreed.hash as u32, $agreed.chunk_size, $($number,)* $($slice.0, $slice.1),*)
        })
    };
}

fn lent<T>(slice: &[T]) -> (*const T, usize) {
    (slice.as_ptr(), slice.len())
}

fn answer(number: i32) -> Result<bool, Error> {
    match number {
        YES => Ok(true),
        NO => Ok(false),
        OTHER_ROOT => Err(Error::OtherRoot),
        OTHER_LENGTHS => Err(Error::OtherLengths),
        OTHER_KEY => Err(Error::OtherKey),
        OTHER_VALUE => Err(Error::OtherValue),
        // NO_MEMORY; families and hash functions are of types that have no other value, so that those of others never come
        _ => Err(Error::Memory),
    }
}

pub fn operation(agreed: Agreed, location: u64, proof: &[u8], operation: &[u8], root: &[u8]) -> Result<bool, Error> {
    ask!(gawerunoa_check_operation, agreed, [location], [lent(proof), lent(operation), lent(root)])
}

pub fn range(
    agreed: Agreed,
    max_digests: usize,
    start: u64,
    proof: &[u8],
    operations: Strings<'_>,
    chunks: Strings<'_>,
    root: &[u8],
) -> Result<bool, Error> {
    ask!(
        gawerunoa_check_range,
        agreed,
        [max_digests, start],
        [
            lent(proof),
            lent(operations.bytes),
            lent(operations.lengths),
            lent(chunks.bytes),
            lent(chunks.lengths),
            lent(root)
        ]
    )
}

pub fn value(
    agreed: Agreed,
    keys: Keys,
    values: Values,
    proof: &[u8],
    key: &[u8],
    value: &[u8],
    root: &[u8],
) -> Result<bool, Error> {
    if let Values::Sized(size) | Values::Fixed(size) = values {
        if size != value.len() {
            return Err(Error::OtherValue);
        }
    }
    let (proof, key, value, root) = (lent(proof), lent(key), lent(value), lent(root));
    match (keys, values) {
        (Keys::OneSize, Values::Variable { .. }) => ask!(gawerunoa_check_value, agreed, [], [proof, key, value, root]),
        (Keys::OneSize, Values::Sized(_)) => ask!(gawerunoa_check_sized_value, agreed, [], [proof, key, value, root]),
        (Keys::OneSize, Values::Fixed(_)) => ask!(gawerunoa_check_fixed_value, agreed, [], [proof, key, value, root]),
        (Keys::Strings { min, max }, Values::Variable { .. }) => {
            ask!(gawerunoa_check_string_value, agreed, [min, max], [proof, key, value, root])
        }
        (Keys::Strings { min, max }, Values::Sized(_)) => {
            ask!(gawerunoa_check_string_sized_value, agreed, [min, max], [proof, key, value, root])
        }
        (Keys::Strings { .. }, Values::Fixed(_)) => Err(Error::OtherKeys),
    }
}

pub fn absence(
    agreed: Agreed,
    keys: Keys,
    values: Values,
    proof: &[u8],
    key: &[u8],
    root: &[u8],
) -> Result<bool, Error> {
    let (proof, key, root) = (lent(proof), lent(key), lent(root));
    match (keys, values) {
        (Keys::OneSize, Values::Variable { min, max }) => {
            ask!(gawerunoa_check_absence, agreed, [min, max], [proof, key, root])
        }
        (Keys::OneSize, Values::Sized(size)) => ask!(gawerunoa_check_sized_absence, agreed, [size], [proof, key, root]),
        (Keys::OneSize, Values::Fixed(size)) => ask!(gawerunoa_check_fixed_absence, agreed, [size], [proof, key, root]),
        (Keys::Strings { min, max }, Values::Variable { min: least, max: most }) => {
            ask!(gawerunoa_check_string_absence, agreed, [min, max, least, most], [proof, key, root])
        }
        (Keys::Strings { min, max }, Values::Sized(size)) => {
            ask!(gawerunoa_check_string_sized_absence, agreed, [min, max, size], [proof, key, root])
        }
        (Keys::Strings { .. }, Values::Fixed(_)) => Err(Error::OtherKeys),
    }
}
