// SPDX-License-Identifier: MIT OR Apache-2.0

package hash

// #include "library.h"
import "C"

// piecewise is what a call on the pieces of a buffer is told.
type piecewise struct {
	out, in                            *C.uint8_t
	outLen, inLen, digestLen, pieceLen C.size_t
}

// digests are those of the pieces of data, of size bytes each, which write has the library write. What is no size_t,
// and a digest that is longer than any, is asked for as 0, which the library refuses.
func digests(size int, data []byte, pieceLen int, write func(piecewise) C.uint32_t) ([]byte, error) {
	if size < 0 || size > 64 {
		size = 0
	}
	pieces := 0
	if pieceLen <= 0 {
		pieceLen = 0
	} else if pieces = len(data) / pieceLen; len(data)%pieceLen > 0 {
		pieces++
	}
	all := make([]byte, pieces*size)
	call := piecewise{digestLen: C.size_t(size), pieceLen: C.size_t(pieceLen)}
	call.out, call.outLen = pointer(all)
	call.in, call.inLen = pointer(data)
	if err := checked(write(call)); err != nil {
		return nil, err
	}
	return all, nil
}

// SHA256Pieces is the digests of the pieces of data by SHA-256 (FIPS 180-4, 6.2), of 32 bytes each, one after the
// other. Every piece has pieceLen bytes, and the last may have fewer; empty data has no pieces. If there are enough whole
// pieces, several are hashed side by side. A pieceLen below 1 is ErrPieceLength.
func SHA256Pieces(data []byte, pieceLen int) ([]byte, error) {
	return digests(32, data, pieceLen, func(c piecewise) C.uint32_t {
		return C.sums_sha256_pieces(c.out, c.outLen, c.in, c.inLen, c.pieceLen)
	})
}

// SHA512Pieces is the digests of the pieces of data by SHA-512 (FIPS 180-4, 6.4), of 64 bytes each.
func SHA512Pieces(data []byte, pieceLen int) ([]byte, error) {
	return digests(64, data, pieceLen, func(c piecewise) C.uint32_t {
		return C.sums_sha512_pieces(c.out, c.outLen, c.in, c.inLen, c.pieceLen)
	})
}

// BLAKE2bPieces is the digests of the pieces of data by BLAKE2b (RFC 7693, 3), of size bytes each, 1 to 64.
func BLAKE2bPieces(size int, data []byte, pieceLen int) ([]byte, error) {
	return digests(size, data, pieceLen, func(c piecewise) C.uint32_t {
		return C.sums_blake2b_pieces(c.out, c.outLen, c.digestLen, c.in, c.inLen, c.pieceLen)
	})
}

// BLAKE2sPieces is the digests of the pieces of data by BLAKE2s (RFC 7693, 3), of size bytes each, 1 to 32.
func BLAKE2sPieces(size int, data []byte, pieceLen int) ([]byte, error) {
	return digests(size, data, pieceLen, func(c piecewise) C.uint32_t {
		return C.sums_blake2s_pieces(c.out, c.outLen, c.digestLen, c.in, c.inLen, c.pieceLen)
	})
}

// BLAKE3Pieces is the digests of the pieces of data by BLAKE3, of 32 bytes each.
func BLAKE3Pieces(data []byte, pieceLen int) ([]byte, error) {
	return digests(32, data, pieceLen, func(c piecewise) C.uint32_t {
		return C.sums_blake3_pieces(c.out, c.outLen, c.in, c.inLen, c.pieceLen)
	})
}
