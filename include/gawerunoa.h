/*
 * Checks for a light client that trusts one digest, the canonical root of a snapshot of an authenticated database. Anybody may
 * have made the bytes of a proof. Licence: Apache License 2.0.
 *
 * Of every pointer and length: `length` readable bytes (or numbers) stand at the pointer, and nothing writes to them during the
 * call. With a length of 0 the pointer is not read and may be null. Pointers to bytes may have any alignment. Nothing is kept
 * after a call, so calls may run side by side in several threads. Memory is taken by malloc and realloc and given back by free
 * before the call answers; so no call is made from a signal handler.
 *
 * A yes says: of each snapshot with that root, made with that family, digest function and chunk size, what is claimed is true; or
 * two different byte strings have one digest, one hashed by the check, the other by the calculation of the root. Whether the root
 * is recent the caller has to know.
 */
#ifndef GAWERUNOA_H
#define GAWERUNOA_H

#include <stddef.h>
#include <stdint.h>

#ifdef __cplusplus
extern "C" {
#endif

/* The version of this header: its major number a million times, its minor number a thousand times, and its patch number. */
#define GAWERUNOA_VERSION 1000 /* 0.1.0 */

/* The version of the library that is linked, in the same form. */
uint32_t gawerunoa_version(void);

/*
 * How the library was built, as a text that is never given back: "gawerunoa 0.1.0 proved by" and the kit that proved it, or
 * "gawerunoa 0.1.0-unproved" and the kit, where no proof was made and the code has run-time checks in place of it.
 */
const char *gawerunoa_build(void);

/* What a call answers. The first of the refusals that holds, in this order: of the struct of what is agreed, the kind of keys, the
   encoding of values, the family, the digest function, the root, the key, the value, the lengths of lists. A refusal takes no
   memory. */
enum gawerunoa_answer {
    GAWERUNOA_YES = 1,
    GAWERUNOA_NO = 0,
    GAWERUNOA_NO_MEMORY = -1,     /* memory ran out: this says nothing of what is claimed */
    GAWERUNOA_OTHER_ROOT = -2,    /* the root has another length than a digest: 32 or 64 bytes */
    GAWERUNOA_OTHER_FAMILY = -3,  /* no such family */
    GAWERUNOA_OTHER_HASH = -4,    /* no such digest function */
    GAWERUNOA_OTHER_LENGTHS = -5, /* the lengths of a list of byte strings do not add up to its bytes */
    GAWERUNOA_OTHER_KEY = -6,     /* the key has a length that no key of one size has: these have 4, 8, 20 or 32 bytes */
    GAWERUNOA_OTHER_VALUE = -7,   /* the value has a size that no value of one size has: these have 4, 8, 20 or 32 bytes */
    GAWERUNOA_OTHER_AGREED = -8,  /* there is not one struct of what is agreed, but none or several */
    GAWERUNOA_OTHER_KIND = -9,    /* no such kind of keys */
    GAWERUNOA_OTHER_ENCODING = -10 /* no such encoding of values, or none for keys of this kind */
};

/* The family of the trees: mountain ranges or mountain belts. */
enum gawerunoa_family { GAWERUNOA_MMR = 0, GAWERUNOA_MMB = 1 };

/* The digest function. Digests of SHA-256 have 32 bytes, those of SHA-512 have 64. */
enum gawerunoa_hash { GAWERUNOA_SHA256 = 0, GAWERUNOA_SHA512 = 1 };

/* The kind of the keys of a database: all have 4, 8, 20 or 32 bytes, or they are strings, of any length. */
enum gawerunoa_keys { GAWERUNOA_ONE_SIZE = 0, GAWERUNOA_STRINGS = 1 };

/* The encoding of its values, as the twelve calls below name them. Fixed values go with keys of one size alone. */
enum gawerunoa_values { GAWERUNOA_VARIABLE = 0, GAWERUNOA_SIZED = 1, GAWERUNOA_FIXED = 2 };

/*
 * What a server and its clients have agreed on, in one struct. All its numbers 0 but the size of a chunk are MMR, SHA-256, keys of
 * one size and variable values.
 */
struct gawerunoa_agreed {
    uint32_t family; /* of enum gawerunoa_family */
    uint32_t hash;   /* of enum gawerunoa_hash */
    uint32_t keys;   /* of enum gawerunoa_keys */
    uint32_t values; /* of enum gawerunoa_values */
    size_t chunk_size;                         /* bytes of a chunk of activity bits */
    size_t min_key_length, max_key_length;     /* of keys in a proof, where keys are strings */
    size_t min_value_length, max_value_length; /* of the value in an exclusion proof; both are the size, where values have one */
    size_t max_digests;                        /* of a range proof */
};

/*
 * The four calls over it. Each answers what one of the twelve calls below answers, which has the same words in its name, or of keys the
 * one for this kind of keys and this encoding of values.
 *
 * `agreed_count` is 1: it says how many structs stand at `agreed`. With 0 the pointer is not read and may be null, and the answer is
 * GAWERUNOA_OTHER_AGREED. The kind of keys and the encoding of values are looked at in each call. A value of another size than the
 * one that is agreed is GAWERUNOA_OTHER_VALUE, where values have one size.
 */
int32_t gawerunoa_ask_operation(
    const struct gawerunoa_agreed *agreed, size_t agreed_count, uint64_t location,
    const uint8_t *proof, size_t proof_length,
    const uint8_t *operation, size_t operation_length,
    const uint8_t *root, size_t root_length);

int32_t gawerunoa_ask_range(
    const struct gawerunoa_agreed *agreed, size_t agreed_count, uint64_t start,
    const uint8_t *proof, size_t proof_length,
    const uint8_t *operations, size_t operations_length,
    const size_t *operation_lengths, size_t operations_count,
    const uint8_t *chunks, size_t chunks_length,
    const size_t *chunk_lengths, size_t chunks_count,
    const uint8_t *root, size_t root_length);

int32_t gawerunoa_ask_value(
    const struct gawerunoa_agreed *agreed, size_t agreed_count,
    const uint8_t *proof, size_t proof_length,
    const uint8_t *key, size_t key_length,
    const uint8_t *value, size_t value_length,
    const uint8_t *root, size_t root_length);

int32_t gawerunoa_ask_absence(
    const struct gawerunoa_agreed *agreed, size_t agreed_count,
    const uint8_t *proof, size_t proof_length,
    const uint8_t *key, size_t key_length,
    const uint8_t *root, size_t root_length);

/*
 * Whether `operation` stands at `location` and is active. `proof` is an operation proof over a chunk of activity bits of
 * `chunk_size` bytes; more than 128 digests in it are a no, and so is a size that no chunk has: sizes are the powers of two up
 * to 2^59.
 */
int32_t gawerunoa_check_operation(
    uint32_t family, uint32_t hash, size_t chunk_size, uint64_t location,
    const uint8_t *proof, size_t proof_length,
    const uint8_t *operation, size_t operation_length,
    const uint8_t *root, size_t root_length);

/*
 * Whether the given operations stand at the locations from `start` on, and the given chunks are all those with the activity bit
 * of one of them. Operations are one string of bytes, and the length of each, `operations_count` of them; so are chunks. `proof`
 * is a range proof; more than `max_digests` digests in it are a no.
 */
int32_t gawerunoa_check_range(
    uint32_t family, uint32_t hash, size_t chunk_size, size_t max_digests, uint64_t start,
    const uint8_t *proof, size_t proof_length,
    const uint8_t *operations, size_t operations_length,
    const size_t *operation_lengths, size_t operations_count,
    const uint8_t *chunks, size_t chunks_length,
    const size_t *chunk_lengths, size_t chunks_count,
    const uint8_t *root, size_t root_length);

/*
 * The next ten are of databases of keys and values, whose updates name the next greater key. Keys are ordered as their bytes are. The
 * keys of a database are of one of two kinds:
 *
 * - of one size: all have 4, 8, 20 or 32 bytes, and are written as they are;
 * - strings: a key has any length, which is written before it.
 *
 * Values are encoded in one of three ways:
 *
 * - variable: a value has any length, which is written before it, and an operation is as long as its parts;
 * - sized: all values have 4, 8, 20 or 32 bytes and are written as they are, and an operation is as long as its parts;
 * - fixed: as sized, but operations are filled up with zeros to one size. Such a database has keys of one size.
 *
 *                        values variable                   values sized                           values fixed
 *     keys of one size   gawerunoa_check_value             gawerunoa_check_sized_value            gawerunoa_check_fixed_value
 *     keys strings       gawerunoa_check_string_value      gawerunoa_check_string_sized_value
 *
 * and the same with `absence` for `value`. A call for another kind or another encoding than those of the snapshot says nothing of it.
 *
 * A yes says of each snapshot what is said above, and of the key what is claimed where the snapshot is well-formed, as such a
 * database makes it: the last operation is an active commit with its floor, each other active operation is an update at or past the
 * floor, no two of these have one key, and each names the next greater of their keys, that of the greatest the least. Whether it is
 * well-formed the caller has to know.
 *
 * `key` and `value` are the bytes of the key and of the value, with no length before them. `proof` is over a chunk of activity bits
 * of `chunk_size` bytes; more than 128 digests in it are a no, and so is a size that no chunk has.
 *
 * The calls with `string` read keys in the proof: the next key in a key-value proof, the two of an update in an exclusion proof. Those
 * have from `min_key_length` to `max_key_length` bytes: a proof with another one in it is a no. Between 0 and SIZE_MAX are all lengths,
 * and `key` may have any. Memory is taken for a copy of it too.
 */

/* Whether `key`, of one size, has the value `value`; values are variable. `proof` is a key-value proof. */
int32_t gawerunoa_check_value(
    uint32_t family, uint32_t hash, size_t chunk_size,
    const uint8_t *proof, size_t proof_length,
    const uint8_t *key, size_t key_length,
    const uint8_t *value, size_t value_length,
    const uint8_t *root, size_t root_length);

/*
 * Whether `key`, of one size, has no value; values are variable, of `min_value_length` to `max_value_length` bytes: a proof with
 * another value in it is a no. Between 0 and SIZE_MAX are all lengths. `proof` is an exclusion proof.
 */
int32_t gawerunoa_check_absence(
    uint32_t family, uint32_t hash, size_t chunk_size, size_t min_value_length, size_t max_value_length,
    const uint8_t *proof, size_t proof_length,
    const uint8_t *key, size_t key_length,
    const uint8_t *root, size_t root_length);

/* Whether `key`, of one size, has the value `value`; values are fixed, all of `value_length` bytes. `proof` is a key-value proof. */
int32_t gawerunoa_check_fixed_value(
    uint32_t family, uint32_t hash, size_t chunk_size,
    const uint8_t *proof, size_t proof_length,
    const uint8_t *key, size_t key_length,
    const uint8_t *value, size_t value_length,
    const uint8_t *root, size_t root_length);

/* Whether `key`, of one size, has no value; values are fixed, all of `value_size` bytes. `proof` is an exclusion proof. */
int32_t gawerunoa_check_fixed_absence(
    uint32_t family, uint32_t hash, size_t chunk_size, size_t value_size,
    const uint8_t *proof, size_t proof_length,
    const uint8_t *key, size_t key_length,
    const uint8_t *root, size_t root_length);

/* Whether `key`, of one size, has the value `value`; values are sized, all of `value_length` bytes. `proof` is a key-value proof. */
int32_t gawerunoa_check_sized_value(
    uint32_t family, uint32_t hash, size_t chunk_size,
    const uint8_t *proof, size_t proof_length,
    const uint8_t *key, size_t key_length,
    const uint8_t *value, size_t value_length,
    const uint8_t *root, size_t root_length);

/* Whether `key`, of one size, has no value; values are sized, all of `value_size` bytes. `proof` is an exclusion proof. */
int32_t gawerunoa_check_sized_absence(
    uint32_t family, uint32_t hash, size_t chunk_size, size_t value_size,
    const uint8_t *proof, size_t proof_length,
    const uint8_t *key, size_t key_length,
    const uint8_t *root, size_t root_length);

/* Whether `key`, a string, has the value `value`; values are variable. `proof` is a key-value proof. */
int32_t gawerunoa_check_string_value(
    uint32_t family, uint32_t hash, size_t chunk_size, size_t min_key_length, size_t max_key_length,
    const uint8_t *proof, size_t proof_length,
    const uint8_t *key, size_t key_length,
    const uint8_t *value, size_t value_length,
    const uint8_t *root, size_t root_length);

/*
 * Whether `key`, a string, has no value; values are variable, of `min_value_length` to `max_value_length` bytes: a proof with another
 * value in it is a no. `proof` is an exclusion proof.
 */
int32_t gawerunoa_check_string_absence(
    uint32_t family, uint32_t hash, size_t chunk_size, size_t min_key_length, size_t max_key_length,
    size_t min_value_length, size_t max_value_length,
    const uint8_t *proof, size_t proof_length,
    const uint8_t *key, size_t key_length,
    const uint8_t *root, size_t root_length);

/* Whether `key`, a string, has the value `value`; values are sized, all of `value_length` bytes. `proof` is a key-value proof. */
int32_t gawerunoa_check_string_sized_value(
    uint32_t family, uint32_t hash, size_t chunk_size, size_t min_key_length, size_t max_key_length,
    const uint8_t *proof, size_t proof_length,
    const uint8_t *key, size_t key_length,
    const uint8_t *value, size_t value_length,
    const uint8_t *root, size_t root_length);

/* Whether `key`, a string, has no value; values are sized, all of `value_size` bytes. `proof` is an exclusion proof. */
int32_t gawerunoa_check_string_sized_absence(
    uint32_t family, uint32_t hash, size_t chunk_size, size_t min_key_length, size_t max_key_length, size_t value_size,
    const uint8_t *proof, size_t proof_length,
    const uint8_t *key, size_t key_length,
    const uint8_t *root, size_t root_length);

#ifdef __cplusplus
}
#endif

#endif
