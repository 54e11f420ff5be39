// SPDX-License-Identifier: MIT OR Apache-2.0

package hash

// #include "library.h"
import "C"

// NewBLAKE2b begins a message that BLAKE2b (RFC 7693) hashes, for a digest of size bytes, 1 to 64, under a key of up to
// 64 bytes; nil is no key.
func NewBLAKE2b(size int, key []byte) (*Hash, error) {
	return NewBLAKE2bSalted(size, key, nil, nil)
}

// NewBLAKE2bSalted begins a message like NewBLAKE2b, with a salt and a personalization of 16 bytes each; nil is zeros.
func NewBLAKE2bSalted(size int, key, salt, person []byte) (*Hash, error) {
	var parameters [2][16]byte
	if err := taken(size, salt, parameters[0][:], person, parameters[1][:]); err != nil {
		return nil, err
	}
	begun := blake2bFunction.state()
	at, n := pointer(key)
	saltAt, _ := pointer(parameters[0][:])
	personAt, _ := pointer(parameters[1][:])
	status := C.sums_blake2b_init_salted((*C.sums_blake2b_state)(begun.memory()), C.size_t(size), at, n, saltAt, personAt)
	return newHash(&blake2bFunction, size, begun, status)
}

// NewBLAKE2s begins a message that BLAKE2s (RFC 7693) hashes, for a digest of size bytes, 1 to 32, under a key of up to
// 32 bytes; nil is no key.
func NewBLAKE2s(size int, key []byte) (*Hash, error) {
	return NewBLAKE2sSalted(size, key, nil, nil)
}

// NewBLAKE2sSalted begins a message like NewBLAKE2s, with a salt and a personalization of 8 bytes each; nil is zeros.
func NewBLAKE2sSalted(size int, key, salt, person []byte) (*Hash, error) {
	var parameters [2][8]byte
	if err := taken(size, salt, parameters[0][:], person, parameters[1][:]); err != nil {
		return nil, err
	}
	begun := blake2sFunction.state()
	at, n := pointer(key)
	saltAt, _ := pointer(parameters[0][:])
	personAt, _ := pointer(parameters[1][:])
	status := C.sums_blake2s_init_salted((*C.sums_blake2s_state)(begun.memory()), C.size_t(size), at, n, saltAt, personAt)
	return newHash(&blake2sFunction, size, begun, status)
}

// taken copies what there is of salt and personalization; a size that is no size_t is refused as the library would.
func taken(size int, salt, saltRoom, person, personRoom []byte) error {
	if size < 0 {
		return ErrDigestLength
	}
	if salt != nil && len(salt) != len(saltRoom) || person != nil && len(person) != len(personRoom) {
		return ErrKeyLength
	}
	copy(saltRoom, salt)
	copy(personRoom, person)
	return nil
}

// SumBLAKE2b is the BLAKE2b digest of 64 bytes of a whole message.
func SumBLAKE2b(data []byte) (digest [64]byte) {
	at, n := pointer(data)
	out, size := pointer(digest[:])
	if err := checked(C.sums_blake2b(out, size, at, n, nil, 0)); err != nil {
		panic(err)
	}
	return digest
}

// SumBLAKE2s is the BLAKE2s digest of 32 bytes of a whole message.
func SumBLAKE2s(data []byte) (digest [32]byte) {
	at, n := pointer(data)
	out, size := pointer(digest[:])
	if err := checked(C.sums_blake2s(out, size, at, n, nil, 0)); err != nil {
		panic(err)
	}
	return digest
}
