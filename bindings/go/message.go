// SPDX-License-Identifier: MIT OR Apache-2.0

package hash

// #include "message.h"
import "C"

import (
	"hash"
	"unsafe"
)

// function is one of the library's, by its number in message.h.
type function struct {
	number C.sums_function
	block  int
	bytes  int // of its state
}

var (
	sha256Function      = function{C.SUMS_OF_SHA256, 64, C.sizeof_sums_sha256_state}
	sha512Function      = function{C.SUMS_OF_SHA512, 128, C.sizeof_sums_sha512_state}
	blake2bFunction     = function{C.SUMS_OF_BLAKE2B, 128, C.sizeof_sums_blake2b_state}
	blake2sFunction     = function{C.SUMS_OF_BLAKE2S, 64, C.sizeof_sums_blake2s_state}
	blake3Function      = function{C.SUMS_OF_BLAKE3, 64, C.sizeof_sums_blake3_state}
	hmacSHA256Function  = function{C.SUMS_OF_HMAC_SHA256, 64, C.sizeof_sums_hmac_sha256_state}
	hmacSHA512Function  = function{C.SUMS_OF_HMAC_SHA512, 128, C.sizeof_sums_hmac_sha512_state}
	hmacBLAKE2bFunction = function{C.SUMS_OF_HMAC_BLAKE2B, 128, C.sizeof_sums_hmac_blake2b_state}
	hmacBLAKE2sFunction = function{C.SUMS_OF_HMAC_BLAKE2S, 64, C.sizeof_sums_hmac_blake2s_state}
)

// state is what the library knows of a message, in words, so that it has its alignment.
type state []uint64

// state is the memory of one, which is not begun yet.
func (f *function) state() state { return make(state, f.bytes/8) }

func (s state) memory() unsafe.Pointer { return unsafe.Pointer(&s[0]) }

func (s state) words() *C.uint64_t { return (*C.uint64_t)(s.memory()) }

// Up to so many bytes of a message wait in Go's memory, since a call of C costs as much as some blocks do.
const mostWaiting = 1024

// message is what Hash and BLAKE3 are: what the library knows of it, and the bytes that wait behind that.
type message struct {
	self     *message // to tell a copy of the struct, which would share the memory below
	changes  *int     // of that memory, and
	made     int      // those of this struct: one that is put back over a later one has made fewer
	function *function
	size     int
	begun    state // as it is before the first byte; nothing writes it any more
	state    state // nil as long as the library has no byte of the message
	waiting  []byte
}

// begin makes a message that follows a state without a byte.
func (m *message) begin(f *function, size int, begun state) {
	*m = message{self: m, changes: new(int), function: f, size: size, begun: begun}
}

// fault is what every call on a message refuses.
func (m *message) fault() error {
	switch {
	case m.self == nil:
		return ErrNotBegun
	case m.self != m || m.made != *m.changes:
		return ErrCopied
	}
	return nil
}

// change stands before each change of the memory.
func (m *message) change() {
	*m.changes++
	m.made++
}

// Write adds a piece to the message. It fails only if the message would be longer than the function takes, which is
// 2^61 - 1 bytes at least, and then adds nothing.
func (m *message) Write(piece []byte) (int, error) {
	if err := m.fault(); err != nil {
		return 0, err
	}
	m.change()
	if len(m.waiting)+len(piece) > mostWaiting {
		if err := m.hand(m.waiting); err != nil {
			return 0, err
		}
		m.waiting = m.waiting[:0]
	}
	if len(piece) <= mostWaiting {
		m.waiting = append(m.waiting, piece...)
	} else if err := m.hand(piece); err != nil {
		return 0, err
	}
	return len(piece), nil
}

// hand lets the library have a piece.
func (m *message) hand(piece []byte) error {
	if len(piece) == 0 {
		return nil
	}
	if m.state == nil {
		m.state = append(state(nil), m.begun...)
	}
	at, n := pointer(piece)
	return checked(C.sums_message_update(m.function.number, m.state.words(), at, n))
}

// known is the state that the bytes that wait stand behind.
func (m *message) known() state {
	if m.state != nil {
		return m.state
	}
	return m.begun
}

// Sum appends the digest or the tag of the message so far, which can go on.
func (m *message) Sum(b []byte) []byte {
	if err := m.fault(); err != nil {
		panic(err)
	}
	all := append(b, make([]byte, m.size)...)
	known := m.known()
	rest, n := pointer(m.waiting)
	out, size := pointer(all[len(b):])
	status := C.sums_message_sum(m.function.number, known.words(), C.size_t(m.function.bytes), rest, n, out, size)
	if err := checked(status); err != nil {
		panic(err)
	}
	return all
}

// Reset begins the message anew, under the same key and parameters. It does nothing to a copy of the struct.
func (m *message) Reset() {
	if m.fault() == nil {
		m.change()
		m.state, m.waiting = nil, m.waiting[:0]
	}
}

// Size is the number of bytes that Sum appends.
func (m *message) Size() int { return m.size }

// BlockSize is the number of bytes of a block of the function.
func (m *message) BlockSize() int {
	if m.function == nil {
		panic(ErrNotBegun)
	}
	return m.function.block
}

// cloneTo makes another message of the same bytes. One that was never begun has none.
func (m *message) cloneTo(other *message) {
	switch m.fault() {
	case nil:
		other.begin(m.function, m.size, m.begun)
		other.state = append(other.state, m.state...)
		other.waiting = append(other.waiting, m.waiting...)
	case ErrCopied:
		panic(ErrCopied)
	}
}

// Hash is a message in pieces, of one function; it is a hash.Hash, and is begun by NewSHA256 and its like. One message
// is for one goroutine at a time, but Sum and Clone, which leave it as it is, may run side by side.
type Hash struct{ message }

var _ hash.Hash = (*Hash)(nil)

// newHash is a message of a function, whose state was begun with a status.
func newHash(f *function, size int, begun state, status C.uint32_t) (*Hash, error) {
	if err := checked(status); err != nil {
		return nil, err
	}
	h := new(Hash)
	h.begin(f, size, begun)
	return h, nil
}

// Clone is another Hash of the same message.
func (h *Hash) Clone() *Hash {
	other := new(Hash)
	h.cloneTo(&other.message)
	return other
}
