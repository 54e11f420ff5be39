// SPDX-License-Identifier: MIT OR Apache-2.0

package hash

// #include "library.h"
import "C"

import (
	"errors"
	"hash"
	"io"
)

// BLAKE3 is a message that BLAKE3 hashes, under a key or for a context if it was so begun; it is a hash.Hash, and is
// begun by NewBLAKE3 and its like. One message is for one goroutine at a time, but Sum, Clone and XOF, which leave it
// as it is, may run side by side.
type BLAKE3 struct{ message }

var _ hash.Hash = (*BLAKE3)(nil)

func ofBLAKE3(s state) *C.sums_blake3_state { return (*C.sums_blake3_state)(s.memory()) }

// What a message without a key begins with.
var begunBLAKE3 = blake3Function.state()

func init() { C.sums_blake3_init(ofBLAKE3(begunBLAKE3)) }

func newBLAKE3(begun state) *BLAKE3 {
	h := new(BLAKE3)
	h.begin(&blake3Function, h.Size(), begun)
	return h
}

// NewBLAKE3 begins a message.
func NewBLAKE3() *BLAKE3 { return newBLAKE3(begunBLAKE3) }

// NewBLAKE3Keyed begins a message under a key of 32 bytes.
func NewBLAKE3Keyed(key []byte) (*BLAKE3, error) {
	if len(key) != 32 {
		return nil, ErrKeyLength
	}
	begun := blake3Function.state()
	at, _ := pointer(key)
	C.sums_blake3_init_keyed(ofBLAKE3(begun), at)
	return newBLAKE3(begun), nil
}

// NewBLAKE3Derive begins key material for a context, which is a text of the application.
func NewBLAKE3Derive(context string) *BLAKE3 {
	begun := blake3Function.state()
	at, n := pointer([]byte(context))
	C.sums_blake3_init_derive(ofBLAKE3(begun), at, n)
	return newBLAKE3(begun)
}

// SumBLAKE3 is the digest of a whole message, the first 32 bytes of the output.
func SumBLAKE3(data []byte) (digest [32]byte) {
	at, n := pointer(data)
	out, size := pointer(digest[:])
	if err := checked(C.sums_blake3(out, size, 0, at, n)); err != nil {
		panic(err)
	}
	return digest
}

// Size is the number of bytes that Sum appends, the first 32 of the output.
func (h *BLAKE3) Size() int { return 32 }

// BlockSize is the number of bytes of a block.
func (h *BLAKE3) BlockSize() int { return 64 }

// Clone is another BLAKE3 of the same message.
func (h *BLAKE3) Clone() *BLAKE3 {
	other := new(BLAKE3)
	h.cloneTo(&other.message)
	return other
}

// XOF is a reader of the output of the message so far, from its first byte on. The message can go on.
func (h *BLAKE3) XOF() *Output {
	other := h.Clone()
	if err := other.hand(other.waiting); err != nil {
		panic(err)
	}
	return &Output{state: other.known()}
}

// Output reads the output of a message, which has 2^64 - 1 bytes, from any position on; it is an io.ReadSeeker.
type Output struct {
	state    state
	position uint64
}

var _ io.ReadSeeker = (*Output)(nil)

const outputLength = 1<<64 - 1

// Read fills the buffer with the next bytes. At the end of the output it gives those that are left, and then io.EOF.
func (o *Output) Read(buffer []byte) (int, error) {
	if o.state == nil {
		return 0, ErrNotBegun
	}
	if left := outputLength - o.position; uint64(len(buffer)) > left {
		buffer = buffer[:left]
		if left == 0 {
			return 0, io.EOF
		}
	}
	at, n := pointer(buffer)
	if err := checked(C.sums_blake3_output(ofBLAKE3(o.state), C.uint64_t(o.position), at, n)); err != nil {
		return 0, err
	}
	o.position += uint64(len(buffer))
	return len(buffer), nil
}

// Seek moves to a position, counted from the start or from here, and returns it; from byte 2^63 on the result is negative,
// 2^64 less than the position. A position outside the output is refused, and so is one counted from the end, which no
// int64 can hold; the position stays then.
func (o *Output) Seek(offset int64, whence int) (int64, error) {
	var base uint64
	switch whence {
	case io.SeekStart:
	case io.SeekCurrent:
		base = o.position
	case io.SeekEnd:
		return 0, errors.New("sums: the output is too long to seek from its end")
	default:
		return 0, errors.New("sums: no such whence: io.SeekStart and io.SeekCurrent are taken")
	}
	to := base + uint64(offset)
	if (offset < 0) != (to < base) && offset != 0 {
		return 0, errors.New("sums: the position is outside the output")
	}
	o.position = to
	return int64(to), nil
}
