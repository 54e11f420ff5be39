// SPDX-License-Identifier: MIT OR Apache-2.0

package hash_test

import (
	"bytes"
	"crypto/sha256"
	"crypto/sha512"
	"math"
	"math/rand"
	"testing"

	"example.org/sums/hash"
)

const blake2Len = 20

// functions are the calls on the pieces of a buffer, with what each has of a piece alone.
var functions = map[string]struct {
	pieces func(data []byte, pieceLen int) ([]byte, error)
	alone  func(piece []byte) []byte
}{
	"SHA-256": {hash.SHA256Pieces, sha256Of},
	"SHA-512": {hash.SHA512Pieces, sha512Of},
	"BLAKE2b": {
		func(data []byte, pieceLen int) ([]byte, error) { return hash.BLAKE2bPieces(blake2Len, data, pieceLen) },
		func(piece []byte) []byte { return digestOf(hash.NewBLAKE2b(blake2Len, nil))(piece) },
	},
	"BLAKE2s": {
		func(data []byte, pieceLen int) ([]byte, error) { return hash.BLAKE2sPieces(blake2Len, data, pieceLen) },
		func(piece []byte) []byte { return digestOf(hash.NewBLAKE2s(blake2Len, nil))(piece) },
	},
	"BLAKE3": {hash.BLAKE3Pieces, func(piece []byte) []byte { digest := hash.SumBLAKE3(piece); return digest[:] }},
}

func sha256Of(data []byte) []byte {
	digest := sha256.Sum256(data)
	return digest[:]
}

func sha512Of(data []byte) []byte {
	digest := sha512.Sum512(data)
	return digest[:]
}

func digestOf(h *hash.Hash, err error) func([]byte) []byte {
	return func(data []byte) []byte {
		if err != nil {
			panic(err)
		}
		h.Write(data)
		return h.Sum(nil)
	}
}

// TestPiecesOfBuffer tries pieces of each length from 1 to 300 and about 1,024, 4,096 and 65,536, up to 20 of them and
// a short one behind them.
func TestPiecesOfBuffer(t *testing.T) {
	lengths := []int{1023, 1024, 1025, 4095, 4096, 4097, 65535, 65536, 65537}
	for length := 1; length <= 300; length++ {
		lengths = append(lengths, length)
	}
	data := make([]byte, 21*65537)
	rand.New(rand.NewSource(1)).Read(data)
	for name, of := range functions {
		for _, length := range lengths {
			var whole []byte
			for count := 0; count <= 20; count++ {
				end := count * length
				for _, rest := range []int{0, 1, length / 2, length - 1} {
					want := whole
					if rest > 0 {
						want = append(whole[:len(whole):len(whole)], of.alone(data[end:end+rest])...)
					}
					got, err := of.pieces(data[:end+rest], length)
					if err != nil || !bytes.Equal(got, want) {
						t.Fatal(name, count, length, rest, err)
					}
				}
				whole = append(whole, of.alone(data[end:end+length])...)
			}
		}
	}
}

func TestPieceRefusals(t *testing.T) {
	data := make([]byte, 1000)
	for name, of := range functions {
		for _, length := range []int{0, -1, math.MinInt} {
			for _, some := range [][]byte{nil, data} {
				if digests, err := of.pieces(some, length); err != hash.ErrPieceLength || digests != nil {
					t.Error(name, length, err)
				}
			}
		}
		if digest, err := of.pieces(data, math.MaxInt); err != nil || !bytes.Equal(digest, of.alone(data)) {
			t.Error(name, "one long piece", err)
		}
	}
	for _, size := range []int{0, -1, 65, math.MaxInt, math.MinInt} {
		for _, length := range []int{0, 7} {
			if _, err := hash.BLAKE2bPieces(size, data, length); err != hash.ErrDigestLength {
				t.Error("BLAKE2b", size, err)
			}
			if _, err := hash.BLAKE2sPieces(size, data, length); err != hash.ErrDigestLength {
				t.Error("BLAKE2s", size, err)
			}
		}
	}
	if _, err := hash.BLAKE2sPieces(33, data, 7); err != hash.ErrDigestLength {
		t.Error("BLAKE2s", err)
	}
}

// plainRoot is the root above leaves of which so many layers stand below it; leaves that are wanting are zeros.
func plainRoot(leaves [][]byte, layers int) []byte {
	if len(leaves) == 0 && layers == 0 {
		return make([]byte, 32)
	}
	if layers == 0 {
		return leaves[0]
	}
	half := 1 << (layers - 1)
	if half > len(leaves) {
		half = len(leaves)
	}
	left, right := plainRoot(leaves[:half], layers-1), plainRoot(leaves[half:], layers-1)
	return sha256Of(append(append([]byte(nil), left...), right...))
}

func TestMerkleRoot(t *testing.T) {
	data := make([]byte, 33*blockLen)
	rand.New(rand.NewSource(2)).Read(data)
	for count := 1; count <= 33; count++ {
		for _, length := range []int{count*blockLen - blockLen + 1, count*blockLen - 1, count * blockLen} {
			var leaves [][]byte
			layers := 0
			for at := 0; at < length; at += blockLen {
				end := at + blockLen
				if end > length {
					end = length
				}
				leaves = append(leaves, sha256Of(data[at:end]))
			}
			for 1<<layers < len(leaves) {
				layers++
			}
			root, err := merkleRoot(data[:length])
			if want := plainRoot(leaves, layers); err != nil || !bytes.Equal(root, want) {
				t.Error(length, err)
			}
		}
	}
}
