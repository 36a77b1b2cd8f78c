// Package gawerunoa checks proofs for a light client of an authenticated database. The client trusts one digest: the canonical root
// of a snapshot.
//
// Strangers hand it a proof and a claim. True means that the claim holds in every snapshot with that root, family, hash function and
// chunk size; or that two different byte strings have one digest, one hashed by the check, the other by the calculation of the root.
// False means nothing more than that this proof does not show the claim. Whether the root is recent the caller has to know.
//
// An error says that there is no answer: ErrMemory, or one of the others where an argument can be part of no question. Calls may run side
// by side in several goroutines.
package gawerunoa

// #cgo CFLAGS: -I${SRCDIR}/include
// #cgo LDFLAGS: ${SRCDIR}/lib/libgawerunoa.a
// #include <gawerunoa.h>
import "C"

import (
	"bytes"
	"errors"
	"math"
	"unsafe"
)

// Version is the version of the package and of the library in it.
const Version = "0.1.0"

// Family is the shape of the trees.
type Family uint32

const (
	MMR Family = C.GAWERUNOA_MMR // Merkle mountain ranges
	MMB Family = C.GAWERUNOA_MMB // Merkle mountain belts
)

// Hash is the digest function.
type Hash uint32

const (
	SHA256 Hash = C.GAWERUNOA_SHA256 // digests of 32 bytes
	SHA512 Hash = C.GAWERUNOA_SHA512 // digests of 64 bytes
)

// Agreed is what the server and the client have agreed on. ChunkSize is the number of bytes of a chunk of activity bits: a power of two up
// to 2^59. Every other size gives false.
type Agreed struct {
	Family    Family
	Hash      Hash
	ChunkSize uint64
}

// Keys says what the keys of a database are: of one size, 4, 8, 20 or 32 bytes, or strings. A string that a proof names and that has
// fewer than Min or more than Max bytes gives false.
type Keys struct {
	AreStrings bool
	Min, Max   uint64
}

// OneSize are keys that all have 4, 8, 20 or 32 bytes; Strings are keys of any length.
var (
	OneSize = Keys{}
	Strings = Keys{AreStrings: true, Max: math.MaxUint64}
)

// Encoding is how a database encodes its values.
type Encoding int

const (
	Variable Encoding = iota // a value has any length, which is written before it
	Sized                    // all values have 4, 8, 20 or 32 bytes, and an operation is as long as its parts
	Fixed                    // as Sized, but zeros fill up all operations to one size; such a database has keys of one size
)

// Values says how a database encodes its values, and how many bytes a value has that a proof of absence may name: from Min to Max. Where
// values have one size, both are that size.
type Values struct {
	Encoding Encoding
	Min, Max uint64
}

// Answer is what the library answers, by the names of its C header. The errors below stand for those that are neither Yes nor No.
type Answer int32

const (
	Yes           Answer = C.GAWERUNOA_YES
	No            Answer = C.GAWERUNOA_NO
	NoMemory      Answer = C.GAWERUNOA_NO_MEMORY
	OtherRoot     Answer = C.GAWERUNOA_OTHER_ROOT
	OtherFamily   Answer = C.GAWERUNOA_OTHER_FAMILY
	OtherHash     Answer = C.GAWERUNOA_OTHER_HASH
	OtherLengths  Answer = C.GAWERUNOA_OTHER_LENGTHS
	OtherKey      Answer = C.GAWERUNOA_OTHER_KEY
	OtherValue    Answer = C.GAWERUNOA_OTHER_VALUE
	OtherAgreed   Answer = C.GAWERUNOA_OTHER_AGREED
	OtherKind     Answer = C.GAWERUNOA_OTHER_KIND
	OtherEncoding Answer = C.GAWERUNOA_OTHER_ENCODING
)

// Build tells how the library inside was built: its version, and the kit that proved it.
func Build() string {
	return C.GoString(C.gawerunoa_build())
}

var (
	ErrMemory       = errors.New("memory ran out during the check")
	ErrOtherRoot    = errors.New("the root has another length than a digest of the hash function")
	ErrOtherFamily  = errors.New("there is no such family")
	ErrOtherHash    = errors.New("there is no such hash function")
	ErrOtherLengths = errors.New("the lengths of a list do not add up to its bytes")
	ErrOtherKey     = errors.New("the key has a length that no key of one size has: these have 4, 8, 20 or 32 bytes")
	ErrOtherValue   = errors.New("the value has a size that no value of one size has: these have 4, 8, 20 or 32 bytes")
	ErrOtherKind    = errors.New("there is no such kind of database: of fixed values keys have one size, and values of one size have one length")
)

// CheckOperation tells whether operation stands at location and is active, by an operation proof. More than 128 digests in it give false.
func CheckOperation(agreed Agreed, location uint64, proof, operation, root []byte) (bool, error) {
	f, h, n := agreed.parts()
	p, pn := lent(proof)
	o, on := lent(operation)
	r, rn := lent(root)
	return told(C.gawerunoa_check_operation(f, h, n, C.uint64_t(location), p, pn, o, on, r, rn))
}

// CheckRange tells whether operations stand at the locations from start on, and chunks are all those with an activity bit of one of
// them, by a range proof. More than maxDigests digests in it give false.
func CheckRange(agreed Agreed, maxDigests, start uint64, proof []byte, operations, chunks [][]byte, root []byte) (bool, error) {
	f, h, n := agreed.parts()
	p, pn := lent(proof)
	o, on := lent(bytes.Join(operations, nil))
	ol, ok := lengths(operations)
	c, cn := lent(bytes.Join(chunks, nil))
	cl, ck := lengths(chunks)
	r, rn := lent(root)
	return told(C.gawerunoa_check_range(f, h, n, C.size_t(maxDigests), C.uint64_t(start), p, pn, o, on, ol, ok, c, cn, cl, ck, r, rn))
}

// CheckValue tells whether key has the value value, by a key-value proof. The length of values of one size is that of value.
func CheckValue(agreed Agreed, keys Keys, encoding Encoding, proof, key, value, root []byte) (bool, error) {
	f, h, n := agreed.parts()
	min, max := C.size_t(keys.Min), C.size_t(keys.Max)
	p, pn := lent(proof)
	k, kn := lent(key)
	v, vn := lent(value)
	r, rn := lent(root)
	switch {
	case keys.AreStrings && encoding == Variable:
		return told(C.gawerunoa_check_string_value(f, h, n, min, max, p, pn, k, kn, v, vn, r, rn))
	case keys.AreStrings && encoding == Sized:
		return told(C.gawerunoa_check_string_sized_value(f, h, n, min, max, p, pn, k, kn, v, vn, r, rn))
	case !keys.AreStrings && encoding == Variable:
		return told(C.gawerunoa_check_value(f, h, n, p, pn, k, kn, v, vn, r, rn))
	case !keys.AreStrings && encoding == Sized:
		return told(C.gawerunoa_check_sized_value(f, h, n, p, pn, k, kn, v, vn, r, rn))
	case !keys.AreStrings && encoding == Fixed:
		return told(C.gawerunoa_check_fixed_value(f, h, n, p, pn, k, kn, v, vn, r, rn))
	}
	return false, ErrOtherKind
}

// CheckAbsence tells whether key has no value, by an exclusion proof.
func CheckAbsence(agreed Agreed, keys Keys, values Values, proof, key, root []byte) (bool, error) {
	f, h, n := agreed.parts()
	min, max := C.size_t(keys.Min), C.size_t(keys.Max)
	least, most := C.size_t(values.Min), C.size_t(values.Max)
	p, pn := lent(proof)
	k, kn := lent(key)
	r, rn := lent(root)
	if values.Encoding != Variable && values.Min != values.Max {
		return false, ErrOtherKind
	}
	switch {
	case keys.AreStrings && values.Encoding == Variable:
		return told(C.gawerunoa_check_string_absence(f, h, n, min, max, least, most, p, pn, k, kn, r, rn))
	case keys.AreStrings && values.Encoding == Sized:
		return told(C.gawerunoa_check_string_sized_absence(f, h, n, min, max, least, p, pn, k, kn, r, rn))
	case !keys.AreStrings && values.Encoding == Variable:
		return told(C.gawerunoa_check_absence(f, h, n, least, most, p, pn, k, kn, r, rn))
	case !keys.AreStrings && values.Encoding == Sized:
		return told(C.gawerunoa_check_sized_absence(f, h, n, least, p, pn, k, kn, r, rn))
	case !keys.AreStrings && values.Encoding == Fixed:
		return told(C.gawerunoa_check_fixed_absence(f, h, n, least, p, pn, k, kn, r, rn))
	}
	return false, ErrOtherKind
}

func (it Agreed) parts() (C.uint32_t, C.uint32_t, C.size_t) {
	return C.uint32_t(it.Family), C.uint32_t(it.Hash), C.size_t(it.ChunkSize)
}

// lent gives the pointer to a slice, and its length; of an empty one the pointer is not read.
func lent(slice []byte) (*C.uint8_t, C.size_t) {
	if len(slice) == 0 {
		return nil, 0
	}
	return (*C.uint8_t)(unsafe.Pointer(&slice[0])), C.size_t(len(slice))
}

func lengths(list [][]byte) (*C.size_t, C.size_t) {
	if len(list) == 0 {
		return nil, 0
	}
	each := make([]C.size_t, len(list))
	for place, slice := range list {
		each[place] = C.size_t(len(slice))
	}
	return &each[0], C.size_t(len(list))
}

func told(answer C.int32_t) (bool, error) {
	switch answer {
	case C.GAWERUNOA_YES:
		return true, nil
	case C.GAWERUNOA_NO:
		return false, nil
	case C.GAWERUNOA_OTHER_ROOT:
		return false, ErrOtherRoot
	case C.GAWERUNOA_OTHER_FAMILY:
		return false, ErrOtherFamily
	case C.GAWERUNOA_OTHER_HASH:
		return false, ErrOtherHash
	case C.GAWERUNOA_OTHER_LENGTHS:
		return false, ErrOtherLengths
	case C.GAWERUNOA_OTHER_KEY:
		return false, ErrOtherKey
	case C.GAWERUNOA_OTHER_VALUE:
		return false, ErrOtherValue
	}
	return false, ErrMemory
}
