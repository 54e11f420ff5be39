// SPDX-License-Identifier: MIT OR Apache-2.0

// Package hash has BLAKE2b, BLAKE2s, BLAKE3, SHA-256, SHA-512 and HMAC over them as hash.Hash, HKDF, and lists of
// digests, over the C library libsums_hash, whose every call is proved equal to its definition. This package above it is
// tested, and not proved. It needs cgo.
//
// The library is the archive that comes with the module, for Linux on amd64 or arm64 with glibc; with the build tag
// sums_system it is the installed one, which pkg-config finds. Keys and states are not wiped, and no constant time is
// claimed: compare tags by hmac.Equal.
package hash

// #include "library.h"
import "C"

import (
	"errors"
	"strconv"
	"unsafe"
)

// What a call is refused for. A refused call has changed nothing.
var (
	ErrDigestLength = errors.New("sums: the function has no output of that length: " + digestLengths)
	ErrKeyLength    = errors.New("sums: the function takes no key or salt of that length: " + keyLengths)
	ErrInputTooLong = errors.New("sums: the message is longer than the function takes")
	ErrNotBegun     = errors.New("sums: the message was never begun: NewSHA256 and its like begin one")
	ErrEndOfOutput  = errors.New("sums: the output has no such bytes: " + outputEnds)
	ErrPieceLength  = errors.New("sums: the function takes no pieces of that length: a piece has 1 byte or more")
	ErrNoAlgorithm  = errors.New("sums: no hash has that number")
	ErrNoLine       = errors.New("sums: no line has that name: it is empty, not UTF-8, holds NUL, or is too long")
	ErrNoVerdict    = errors.New("sums: no verdict has that number")
	ErrCopied       = errors.New("sums: a copy of a message's struct is no message: Clone makes one")
)

const (
	digestLengths = "SHA-256 and BLAKE3 have digests of 32 bytes, SHA-512 of 64, BLAKE2b of 1 to 64, BLAKE2s of 1 to 32"
	keyLengths    = "BLAKE2b takes keys of up to 64 bytes and salts of 16, BLAKE2s of up to 32 and of 8, " +
		"BLAKE3 keys of 32, and the second step of HKDF keys as long as a digest or longer"
	outputEnds = "that of HKDF ends after 255 digests, that of BLAKE3 after 2^64 - 1 bytes"
)

// SUMS_OUTPUT_LENGTH never comes: an output is made as long as the digests of all pieces, or as the line.
var refusals = map[C.uint32_t]error{
	C.SUMS_DIGEST_LENGTH:  ErrDigestLength,
	C.SUMS_KEY_LENGTH:     ErrKeyLength,
	C.SUMS_INPUT_TOO_LONG: ErrInputTooLong,
	C.SUMS_NOT_BEGUN:      ErrNotBegun,
	C.SUMS_END_OF_OUTPUT:  ErrEndOfOutput,
	C.SUMS_PIECE_LENGTH:   ErrPieceLength,
	C.SUMS_NO_HASH:        ErrNoAlgorithm,
	C.SUMS_NO_LINE:        ErrNoLine,
	C.SUMS_NO_VERDICT:     ErrNoVerdict,
}

// checked is what a status means. A later library may have some that are not known here.
func checked(status C.uint32_t) error {
	if status == C.SUMS_OK {
		return nil
	}
	if refusal := refusals[status]; refusal != nil {
		return refusal
	}
	return errors.New("sums: status " + strconv.FormatUint(uint64(status), 10))
}

// pointer is that of the bytes, of which there may be none, and their number. Go lends its memory to C for a call.
func pointer(data []byte) (*C.uint8_t, C.size_t) {
	if len(data) == 0 {
		return nil, 0
	}
	return (*C.uint8_t)(unsafe.Pointer(&data[0])), C.size_t(len(data))
}
