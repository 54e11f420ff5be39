// SPDX-License-Identifier: MIT OR Apache-2.0

package hash

// #include "list.h"
import "C"

import (
	"errors"
	"io"
	"strconv"
	"unsafe"
)

// Algorithm is a hash of the entries of a list.
type Algorithm uint32

// The hashes of lists. AlgorithmAny is for a list whose lines have tags, each with the name of its hash.
const (
	AlgorithmAny     Algorithm = C.SUMS_ANY
	AlgorithmSHA256  Algorithm = C.SUMS_SHA256
	AlgorithmSHA512  Algorithm = C.SUMS_SHA512
	AlgorithmBLAKE2b Algorithm = C.SUMS_BLAKE2B
	AlgorithmBLAKE2s Algorithm = C.SUMS_BLAKE2S
	AlgorithmBLAKE3  Algorithm = C.SUMS_BLAKE3
)

var algorithmNames = map[Algorithm]string{
	AlgorithmAny: "any", AlgorithmSHA256: "sha256", AlgorithmSHA512: "sha512", AlgorithmBLAKE2b: "blake2b",
	AlgorithmBLAKE2s: "blake2s", AlgorithmBLAKE3: "blake3",
}

// String is the name of the algorithm, such as "sha256".
func (a Algorithm) String() string {
	if name, known := algorithmNames[a]; known {
		return name
	}
	return "algorithm " + strconv.FormatUint(uint64(a), 10)
}

// Entry is a line of a list: the digest of the file of a name, and the line's number, from 1. If Malformed is not nil,
// the line is none, and has a number alone.
type Entry struct {
	Name      string
	Sum       []byte
	Hash      Algorithm
	Line      uint64
	Malformed *MalformedError
}

// MalformedError is a line of a list that is no entry, no comment and not empty. It is Untagged if it would be an entry
// if its algorithm were named.
type MalformedError struct {
	Line     uint64
	Untagged bool
}

func (e *MalformedError) Error() string {
	text := "sums: line " + strconv.FormatUint(e.Line, 10) + " is malformed"
	if e.Untagged {
		text += ": it has no tag, and its algorithm has to be named"
	}
	return text
}

const (
	listPiece = 1 << 16
	listRoom  = 2 * C.SUMS_LIST_MOST
)

// ListScanner reads the entries of a list, as a bufio.Scanner reads lines. It is begun by NewListScanner, and is for one
// goroutine.
type ListScanner struct {
	reader        io.Reader
	state, line   []uint64
	room          []uint64 // what the library has told of lines, of which some wait
	used, at      int
	piece, rest   []byte // rest is what is not read yet of the piece
	skipped       uint64
	entry         Entry
	err, ended    error // ended is why no more lines come
	goesOn        bool
	isEnd, isDone bool // the reader has ended, and so has the library
}

// NewListScanner begins to read a list, as sha256sum, b2sum and b3sum write it. Untagged lines are of the algorithm;
// under AlgorithmAny each line needs a tag. It reads ahead.
func NewListScanner(r io.Reader, alg Algorithm) *ListScanner {
	s := &ListScanner{
		reader: r, state: make([]uint64, C.sizeof_sums_list_state/8), line: make([]uint64, C.sizeof_sums_list_entry/8),
		room: make([]uint64, listRoom/8), piece: make([]byte, listPiece),
	}
	s.err = checked(C.sums_list_init((*C.sums_list_state)(unsafe.Pointer(&s.state[0])), C.uint32_t(alg)))
	return s
}

// KeepMalformed has Scan give malformed lines too, in place of ending there: as an Entry whose Malformed is not nil.
func (s *ListScanner) KeepMalformed() { s.goesOn = true }

// Scan reads the next entry, which Entry then returns. It is false at the end of the list, at a malformed line, and if the
// reader fails; Err says which. If the reader fails, a line that has not ended is not read.
func (s *ListScanner) Scan() bool {
	s.entry = Entry{}
	for s.err == nil && s.at == s.used && !s.isDone {
		s.more()
	}
	if s.err == nil && s.at == s.used {
		s.err = s.ended
		return false
	}
	if s.err != nil {
		return false
	}
	entry := s.next()
	if entry.Malformed != nil && !s.goesOn {
		s.err = entry.Malformed
		return false
	}
	s.entry = entry
	return true
}

// Entry is what the last Scan has read.
func (s *ListScanner) Entry() Entry { return s.entry }

// Err is why Scan ended: nil at the end of the list, a *MalformedError, or the reader's error.
func (s *ListScanner) Err() error { return s.err }

// A reader that gives nothing so many times, and no error, is refused.
const mostEmptyReads = 100

// read has the reader give the next piece, or say why there is none.
func (s *ListScanner) read() {
	for tries := 0; tries < mostEmptyReads; tries++ {
		n, err := s.reader.Read(s.piece)
		if n < 0 || n > len(s.piece) {
			n, err = 0, errors.New("sums: the reader gave an impossible number of bytes")
		}
		s.rest, s.isEnd = s.piece[:n], err != nil
		if err != nil && err != io.EOF {
			s.ended = err
		}
		if n > 0 || s.isEnd {
			return
		}
	}
	s.isEnd, s.ended = true, io.ErrNoProgress
}

// more has the library read what is left of the piece or the next one, and at the end of the list its last line.
func (s *ListScanner) more() {
	if len(s.rest) == 0 && !s.isEnd {
		s.read()
	}
	s.at, s.used = 0, 0
	state, line, room := (*C.uint64_t)(&s.state[0]), (*C.uint64_t)(&s.line[0]), (*C.uint64_t)(&s.room[0])
	if len(s.rest) > 0 {
		at, n := pointer(s.rest)
		s.take(C.sums_list_lines(state, line, at, n, room, listRoom))
		return
	}
	s.isDone = true
	if s.ended == nil {
		s.take(C.sums_list_last(state, line, room))
	}
}

func (s *ListScanner) take(progress C.sums_list_progress) {
	s.rest = s.rest[progress.taken:]
	s.used = int(progress.used)
	s.skipped += uint64(progress.skipped)
	if err := checked(progress.status); err != nil {
		s.ended, s.isDone = err, true
	}
}

// next is the line that has waited longest.
func (s *ListScanner) next() Entry {
	const size = C.sizeof_sums_list_head
	told := unsafe.Slice((*byte)(unsafe.Pointer(&s.room[0])), listRoom)[s.at:s.used]
	head := (*C.sums_list_head)(unsafe.Pointer(&told[0]))
	entry := Entry{Line: uint64(head.number)}
	sum, name := size+int(head.digest_len), size+int(head.digest_len)+int(head.name_len)
	if head.kind == C.SUMS_LINE_ENTRY {
		entry.Hash = Algorithm(head.hash)
		entry.Sum = append([]byte(nil), told[size:sum]...)
		entry.Name = string(told[sum:name])
	} else {
		entry.Malformed = &MalformedError{entry.Line, head.kind == C.SUMS_LINE_UNTAGGED}
	}
	s.at += (name + 7) / 8 * 8
	return entry
}
