// SPDX-License-Identifier: MIT OR Apache-2.0

package hash

// #include "library.h"
import "C"

// What a message without a key begins with.
var begunSHA256, begunSHA512 = sha256Function.state(), sha512Function.state()

func init() {
	C.sums_sha256_init((*C.sums_sha256_state)(begunSHA256.memory()))
	C.sums_sha512_init((*C.sums_sha512_state)(begunSHA512.memory()))
}

// NewSHA256 begins a message that SHA-256 (FIPS 180-4) hashes.
func NewSHA256() *Hash {
	h := new(Hash)
	h.begin(&sha256Function, 32, begunSHA256)
	return h
}

// NewSHA512 begins a message that SHA-512 (FIPS 180-4) hashes.
func NewSHA512() *Hash {
	h := new(Hash)
	h.begin(&sha512Function, 64, begunSHA512)
	return h
}

// SumSHA256 is the SHA-256 digest of a whole message.
func SumSHA256(data []byte) (digest [32]byte) {
	at, n := pointer(data)
	out, _ := pointer(digest[:])
	C.sums_sha256(out, at, n)
	return digest
}

// SumSHA512 is the SHA-512 digest of a whole message.
func SumSHA512(data []byte) (digest [64]byte) {
	at, n := pointer(data)
	out, _ := pointer(digest[:])
	C.sums_sha512(out, at, n)
	return digest
}
