// SPDX-License-Identifier: MIT OR Apache-2.0

package hash_test

import (
	"bytes"
	"fmt"

	"example.org/sums/hash"
)

const (
	blockLen  = 16384
	digestLen = 32
)

// merkleRoot is the root of the Merkle tree of a file as BitTorrent v2 has it (BEP 52, "pieces root"), of one byte or
// more. The leaves are the SHA-256 digests of blocks of 16 KiB, and each node above is that of its two.
func merkleRoot(data []byte) ([]byte, error) {
	layer, err := hash.SHA256Pieces(data, blockLen)
	if err != nil {
		return nil, err
	}
	// leaves of zeros fill the layer up to a power of two
	width := digestLen
	for width < len(layer) {
		width *= 2
	}
	layer = append(layer, make([]byte, width-len(layer))...)
	for len(layer) > digestLen {
		if layer, err = hash.SHA256Pieces(layer, 2*digestLen); err != nil {
			return nil, err
		}
	}
	return layer, nil
}

// The root of a file's Merkle tree as BitTorrent v2 has it.
func ExampleSHA256Pieces() {
	root, err := merkleRoot(bytes.Repeat([]byte("sums"), 25000))
	fmt.Printf("%x %v\n", root, err)
	// Output: e9772d4464042e7fb3e26a3aaa0dc9fbf723b71fc8c7e155fab9b6e15f769b52 <nil>
}
