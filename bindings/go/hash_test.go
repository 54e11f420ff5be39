// SPDX-License-Identifier: MIT OR Apache-2.0

package hash

import (
	"bytes"
	"crypto/hmac"
	"crypto/sha256"
	"crypto/sha512"
	"encoding"
	"encoding/hex"
	stdhash "hash"
	"io"
	"math/rand"
	"strings"
	"sync"
	"testing"
	"testing/iotest"
)

func must[T any](value T, err error) T {
	if err != nil {
		panic(err)
	}
	return value
}

var makers = map[string]func() stdhash.Hash{
	"sha256":        func() stdhash.Hash { return NewSHA256() },
	"sha512":        func() stdhash.Hash { return NewSHA512() },
	"blake2b":       func() stdhash.Hash { return must(NewBLAKE2b(64, nil)) },
	"blake2b keyed": func() stdhash.Hash { return must(NewBLAKE2b(20, []byte("key"))) },
	"blake2b salted": func() stdhash.Hash {
		return must(NewBLAKE2bSalted(20, nil, make([]byte, 16), []byte("person of 16 byt")))
	},
	"blake2s":          func() stdhash.Hash { return must(NewBLAKE2s(32, nil)) },
	"blake2s salted":   func() stdhash.Hash { return must(NewBLAKE2sSalted(1, []byte("key"), []byte("the salt"), nil)) },
	"blake3":           func() stdhash.Hash { return NewBLAKE3() },
	"blake3 keyed":     func() stdhash.Hash { return must(NewBLAKE3Keyed(make([]byte, 32))) },
	"blake3 derive":    func() stdhash.Hash { return NewBLAKE3Derive("a context") },
	"hmac of sha256":   func() stdhash.Hash { return must(NewHMACSHA256([]byte("key"))) },
	"hmac of sha512":   func() stdhash.Hash { return must(NewHMACSHA512([]byte("key"))) },
	"hmac of blake2b":  func() stdhash.Hash { return must(NewHMACBLAKE2b([]byte("key"))) },
	"hmac of blake2s":  func() stdhash.Hash { return must(NewHMACBLAKE2s([]byte("key"))) },
	"hmac of long key": func() stdhash.Hash { return must(NewHMACSHA256(make([]byte, 1000))) },
}

var input = bytes.Repeat([]byte{1, 2, 3, 5, 7}, 999)

func written(h stdhash.Hash, t *testing.T) []byte {
	if n, err := h.Write(input); n != len(input) || err != nil {
		t.Fatal(n, err)
	}
	return h.Sum(nil)
}

func eachHash(t *testing.T, test func(t *testing.T, begin func() stdhash.Hash)) {
	for name, begin := range makers {
		t.Run(name, func(t *testing.T) { test(t, begin) })
	}
}

func TestSum(t *testing.T) {
	eachHash(t, func(t *testing.T, begin func() stdhash.Hash) {
		h := begin()
		want := written(h, t)
		if len(want) != h.Size() {
			t.Error("sizes", len(want), h.Size())
		}
		// it appends, in the room behind the slice where there is enough, and leaves what stands before and the input
		for _, room := range []int{0, 1, 7, 500} {
			b := append([]byte("before"), make([]byte, room)...)[:6]
			if sum := h.Sum(b); string(sum[:6]) != "before" || !bytes.Equal(sum[6:], want) || room == 500 && &sum[0] != &b[0] {
				t.Error("room", room)
			}
		}
	})
}

// TestBlocks tries the blocks of the standards, of which HMAC over a hash makes use.
func TestBlocks(t *testing.T) {
	eachHash(t, func(t *testing.T, begin func() stdhash.Hash) {
		wide := strings.Contains(t.Name(), "512") || strings.Contains(t.Name(), "blake2b")
		if block := begin().BlockSize(); block != map[bool]int{true: 128, false: 64}[wide] {
			t.Error(block)
		}
	})
	defer func() {
		if recover() != ErrNotBegun {
			t.Error("a block of no function")
		}
	}()
	new(Hash).BlockSize()
}

func TestPieces(t *testing.T) {
	eachHash(t, func(t *testing.T, begin func() stdhash.Hash) {
		want := written(begin(), t)
		random := rand.New(rand.NewSource(1))
		h := begin()
		for rest := input; len(rest) > 0; {
			n := random.Intn(300)
			if n > len(rest) {
				n = len(rest)
			}
			must(h.Write(rest[:n]))
			h.Sum(nil)
			rest = rest[n:]
		}
		must(h.Write(nil))
		if !bytes.Equal(h.Sum(nil), want) {
			t.Error("in pieces")
		}
		h.Reset()
		if !bytes.Equal(h.Sum(nil), begin().Sum(nil)) {
			t.Error("Reset")
		}
		must(io.Copy(h, iotest.OneByteReader(bytes.NewReader(input))))
		if !bytes.Equal(h.Sum(nil), want) {
			t.Error("io.Copy after Reset")
		}
	})
}

func clone(h stdhash.Hash) stdhash.Hash {
	if b, is := h.(*BLAKE3); is {
		return b.Clone()
	}
	return h.(*Hash).Clone()
}

// TestWaiting tries messages about the lengths at which the bytes that wait go to the library, in one piece and in two,
// with a sum, a clone and a piece that changes later on the way.
func TestWaiting(t *testing.T) {
	eachHash(t, func(t *testing.T, begin func() stdhash.Hash) {
		h := begin()
		for _, n := range []int{0, 1, mostWaiting - 1, mostWaiting, mostWaiting + 1, 4 * mostWaiting} {
			for _, cut := range []int{0, 1, n / 2, n - 1, n} {
				if cut < 0 || cut > n {
					continue
				}
				whole := begin()
				must(whole.Write(input[:n]))
				want := whole.Sum(nil)
				h.Reset()
				piece := append([]byte(nil), input[:cut]...)
				must(h.Write(piece))
				for i := range piece {
					piece[i]++
				}
				h.Sum(nil)
				other := clone(h)
				must(h.Write(input[cut:n]))
				must(other.Write(input[cut:n]))
				if !bytes.Equal(h.Sum(nil), want) || !bytes.Equal(h.Sum(nil), want) {
					t.Error("in two pieces", n, cut)
				}
				must(h.Write(input[:7]))
				if !bytes.Equal(other.Sum(nil), want) {
					t.Error("a clone is no other message", n, cut)
				}
			}
		}
	})
}

// TestCopies tries copies of a message's struct, which would share its memory.
func TestCopies(t *testing.T) {
	for _, n := range []int{0, 1, 5000} {
		h, b := NewSHA256(), NewBLAKE3()
		must(h.Write(make([]byte, n)))
		must(b.Write(make([]byte, n)))
		hashes, trees := *h, *b
		for i, use := range []func(){
			func() { hashes.Sum(nil) }, func() { hashes.Clone() }, func() { trees.Sum(nil) }, func() { trees.XOF() },
		} {
			func() {
				defer func() {
					if recover() != ErrCopied {
						t.Error("not refused", n, i)
					}
				}()
				use()
			}()
		}
		if _, err := hashes.Write([]byte("a")); err != ErrCopied {
			t.Error(err)
		}
	}
	// a copy that is put back, so as to undo what came after it
	for _, change := range []func(h *Hash){
		func(h *Hash) { must(h.Write([]byte("a"))) }, func(h *Hash) { must(h.Write(make([]byte, 5000))) }, (*Hash).Reset,
	} {
		h := NewSHA256()
		must(h.Write(make([]byte, 1000)))
		before := *h
		change(h)
		before.Reset()
		if other := h.Clone(); !bytes.Equal(h.Sum(nil), other.Sum(nil)) {
			t.Error("a copy has reset the message")
		}
		*h = before
		if _, err := h.Write(nil); err != ErrCopied {
			t.Error(err)
		}
	}
	if _, err := new(BLAKE3).Clone().Write(nil); err != ErrNotBegun {
		t.Error(err)
	}
	// a state is no format to keep
	if _, is := stdhash.Hash(NewSHA256()).(encoding.BinaryMarshaler); is {
		t.Error("a state can be written")
	}
}

func TestAtOnce(t *testing.T) {
	for _, n := range []int{0, 1, 64, 1000, 4000} {
		of256, of512 := SumSHA256(input[:n]), SumSHA512(input[:n])
		b, s, tree := SumBLAKE2b(input[:n]), SumBLAKE2s(input[:n]), SumBLAKE3(input[:n])
		for name, got := range map[string][]byte{
			"sha256": of256[:], "sha512": of512[:], "blake2b": b[:], "blake2s": s[:], "blake3": tree[:],
		} {
			h := makers[name]()
			must(h.Write(input[:n]))
			if !bytes.Equal(got, h.Sum(nil)) {
				t.Error(name, n)
			}
		}
	}
}

func TestStandardLibrary(t *testing.T) {
	blake2 := func() stdhash.Hash { return must(NewBLAKE2b(64, nil)) }
	for n := 0; n < 600; n++ {
		data := make([]byte, n)
		rand.New(rand.NewSource(int64(n))).Read(data)
		for i, pair := range [][2]stdhash.Hash{
			{NewSHA256(), sha256.New()},
			{NewSHA512(), sha512.New()},
			{must(NewHMACSHA256(data)), hmac.New(sha256.New, data)},
			{must(NewHMACSHA512(data)), hmac.New(sha512.New, data)},
			{must(NewHMACBLAKE2b(data)), hmac.New(blake2, data)},
		} {
			must(pair[0].Write(data))
			must(pair[1].Write(data))
			if !bytes.Equal(pair[0].Sum(nil), pair[1].Sum(nil)) {
				t.Fatal(n, i)
			}
		}
	}
}

func TestOutput(t *testing.T) {
	h := NewBLAKE3()
	must(h.Write([]byte("abc")))
	if hex.EncodeToString(h.Sum(nil)) != "6437b3ac38465133ffb63b75273a8db548c558465d79db03fd359c6cd5bd9d85" {
		t.Error("abc")
	}
	want := make([]byte, 1000)
	must(io.ReadFull(h.XOF(), want))
	if err := iotest.TestReader(io.NewSectionReader(readerAt{h.XOF()}, 0, 1000), want); err != nil {
		t.Error(err)
	}
	if err := iotest.TestReader(io.LimitReader(h.XOF(), 1000), want); err != nil {
		t.Error(err)
	}
	o := h.XOF()
	must(o.Seek(100, io.SeekStart))
	must(o.Seek(-50, io.SeekCurrent))
	if got := must(io.ReadAll(io.LimitReader(o, 950))); !bytes.Equal(got, want[50:]) {
		t.Error("Seek")
	}
	must(h.Write([]byte("more")))
	must(o.Seek(0, io.SeekStart))
	if got := must(io.ReadAll(io.LimitReader(o, 1000))); !bytes.Equal(got, want) {
		t.Error("the output of a input that went on")
	}
}

func TestEndOfOutput(t *testing.T) {
	o := NewBLAKE3().XOF()
	must(o.Seek(1<<63-1, io.SeekStart))
	if at := must(o.Seek(1<<63-3, io.SeekCurrent)); uint64(at) != 1<<64-4 {
		t.Error(at)
	}
	if n, err := o.Read(make([]byte, 10)); n != 3 || err != nil {
		t.Error("the end", n, err)
	}
	if n, err := o.Read(make([]byte, 10)); n != 0 || err != io.EOF {
		t.Error("behind the end", n, err)
	}
	if n, err := o.Read(nil); n != 0 || err != nil {
		t.Error("no bytes behind the end", n, err)
	}
	for _, seek := range []struct {
		offset int64
		whence int
	}{{1, io.SeekCurrent}, {0, io.SeekEnd}, {-3, io.SeekEnd}, {-1, io.SeekStart}, {0, 3}} {
		if _, err := o.Seek(seek.offset, seek.whence); err == nil {
			t.Error("not refused", seek)
		}
	}
	if at := must(o.Seek(0, io.SeekCurrent)); uint64(at) != 1<<64-1 {
		t.Error("a refusal moved to", at)
	}
}

type readerAt struct{ *Output }

func (r readerAt) ReadAt(buffer []byte, at int64) (int, error) {
	must(r.Seek(at, io.SeekStart))
	return r.Read(buffer)
}

func refusal[T any](_ T, err error) error { return err }

func TestRefusals(t *testing.T) {
	for i, c := range []struct{ got, want error }{
		{refusal(NewBLAKE2b(65, nil)), ErrDigestLength},
		{refusal(NewBLAKE2b(0, nil)), ErrDigestLength},
		{refusal(NewBLAKE2b(-1, nil)), ErrDigestLength},
		{refusal(NewBLAKE2s(33, nil)), ErrDigestLength},
		{refusal(NewBLAKE2b(64, make([]byte, 65))), ErrKeyLength},
		{refusal(NewBLAKE2s(32, make([]byte, 33))), ErrKeyLength},
		{refusal(NewBLAKE2bSalted(64, nil, make([]byte, 15), nil)), ErrKeyLength},
		{refusal(NewBLAKE2bSalted(64, nil, make([]byte, 17), nil)), ErrKeyLength},
		{refusal(NewBLAKE2bSalted(64, nil, nil, []byte{})), ErrKeyLength},
		{refusal(NewBLAKE2sSalted(32, nil, nil, make([]byte, 9))), ErrKeyLength},
		{refusal(NewBLAKE2sSalted(32, nil, nil, make([]byte, 7))), ErrKeyLength},
		{refusal(NewBLAKE3Keyed(nil)), ErrKeyLength},
		{refusal(NewBLAKE3Keyed(make([]byte, 33))), ErrKeyLength},
		{refusal(HKDFSHA256(8161, nil, nil, nil)), ErrEndOfOutput},
		{refusal(HKDFBLAKE2b(1<<60, nil, nil, nil)), ErrEndOfOutput},
		{refusal(HKDFSHA512(-1, nil, nil, nil)), ErrEndOfOutput},
		{refusal(HKDFExpandSHA256(8161, make([]byte, 32), nil)), ErrEndOfOutput},
		{refusal(HKDFExpandBLAKE2b(-1, make([]byte, 64), nil)), ErrEndOfOutput},
		{refusal(HKDFExpandSHA512(32, make([]byte, 63), nil)), ErrKeyLength},
		{refusal(HKDFExpandBLAKE2s(8161, nil, nil)), ErrKeyLength},
		{refusal(new(Hash).Write([]byte("a"))), ErrNotBegun},
		{refusal(new(BLAKE3).Write([]byte("a"))), ErrNotBegun},
		{refusal(new(BLAKE3).XOF().Read(make([]byte, 1))), ErrNotBegun},
		{refusal(new(Output).Read(make([]byte, 1))), ErrNotBegun},
	} {
		if c.got != c.want {
			t.Error(i, c.got)
		}
	}
}

// TestLongest tries a message that has all bytes that SHA-256 takes, by the count in its state.
func TestLongest(t *testing.T) {
	h := NewSHA256()
	must(h.Write(make([]byte, 64+2*mostWaiting)))
	for i, word := range h.state {
		if word == 64+2*mostWaiting {
			h.state[i] = 1<<61 - 64
		}
	}
	must(h.Write(make([]byte, 63)))
	if n, err := h.Write(make([]byte, 2*mostWaiting)); n != 0 || err != ErrInputTooLong {
		t.Error("a piece", n, err)
	}
	must(h.Write([]byte{1}))
	defer func() {
		if recover() != ErrInputTooLong {
			t.Error("a digest of too many bytes")
		}
	}()
	h.Sum(nil)
}

// TestStatuses tries those that have an error of their own, and others, as a later library may answer.
func TestStatuses(t *testing.T) {
	for status, c := range []struct{ got, want error }{
		{checked(0), nil}, {checked(1), ErrDigestLength}, {checked(2), ErrKeyLength}, {checked(3), ErrInputTooLong},
		{checked(4), ErrNotBegun}, {checked(5), ErrEndOfOutput}, {checked(6), ErrPieceLength}, {checked(8), ErrNoAlgorithm},
		{checked(9), ErrNoLine}, {checked(10), ErrNoVerdict},
	} {
		if c.got != c.want {
			t.Error(status, c.got)
		}
	}
	for want, got := range map[string]error{
		"sums: status 7": checked(7), "sums: status 11": checked(11), "sums: status 4294967295": checked(1<<32 - 1),
	} {
		if got == nil || got.Error() != want {
			t.Error(want, got)
		}
	}
}

// keysOf are the calls of HKDF over each hash, with the most bytes of a key.
var keysOf = map[string]struct {
	whole   func(int, []byte, []byte, []byte) ([]byte, error)
	extract func([]byte, []byte) ([]byte, error)
	expand  func(int, []byte, []byte) ([]byte, error)
	most    int
}{
	"sha256":  {HKDFSHA256, HKDFExtractSHA256, HKDFExpandSHA256, 8160},
	"sha512":  {HKDFSHA512, HKDFExtractSHA512, HKDFExpandSHA512, 16320},
	"blake2b": {HKDFBLAKE2b, HKDFExtractBLAKE2b, HKDFExpandBLAKE2b, 16320},
	"blake2s": {HKDFBLAKE2s, HKDFExtractBLAKE2s, HKDFExpandBLAKE2s, 8160},
}

// RFC 5869, appendix A.1
func TestHKDF(t *testing.T) {
	bytesOf := func(digits string) []byte { return must(hex.DecodeString(digits)) }
	material, salt := bytes.Repeat([]byte{0x0b}, 22), bytesOf("000102030405060708090a0b0c")
	prk := must(HKDFExtractSHA256(material, salt))
	if want := "077709362c2e32df0ddc3f0dc47bba6390b6c73bb50f9c3122ec844ad7c2b3e5"; hex.EncodeToString(prk) != want {
		t.Error("extract", prk)
	}
	info, want := bytesOf("f0f1f2f3f4f5f6f7f8f9"), bytesOf("3cb25f25faacd57a90434f64d0362f2a"+
		"2d2d0a90cf1a5a4c5db02d56ecc4c5bf34007208d5b887185865")
	if !bytes.Equal(must(HKDFExpandSHA256(42, prk, info)), want) {
		t.Error("expand")
	}
	for name, of := range keysOf {
		for _, size := range []int{0, 1, 42, of.most} {
			whole := must(of.whole(size, material, salt, info))
			if !bytes.Equal(whole, must(of.expand(size, must(of.extract(material, salt)), info))) || len(whole) != size {
				t.Error("two steps", name, size)
			}
		}
	}
}

// TestReaders calls side by side what leaves a message as it is.
func TestReaders(t *testing.T) {
	h := NewBLAKE3()
	want := written(h, t)
	var group sync.WaitGroup
	for i := 0; i < 50; i++ {
		group.Add(1)
		go func() {
			defer group.Done()
			output := make([]byte, 32)
			must(io.ReadFull(h.XOF(), output))
			if !bytes.Equal(h.Sum(nil), want) || !bytes.Equal(h.Clone().Sum(nil), want) || !bytes.Equal(output, want) {
				t.Error("side by side")
			}
		}()
	}
	group.Wait()
}

func TestSideBySide(t *testing.T) {
	want := written(must(NewBLAKE2b(64, nil)), t)
	var group sync.WaitGroup
	for i := 0; i < 50; i++ {
		group.Add(1)
		go func() {
			defer group.Done()
			h := must(NewBLAKE2b(64, nil))
			for _, b := range input {
				must(h.Write([]byte{b}))
			}
			if !bytes.Equal(h.Sum(nil), want) {
				t.Error("side by side")
			}
		}()
	}
	group.Wait()
}

func benchmarkWrite(b *testing.B, h stdhash.Hash, size int) {
	piece := make([]byte, size)
	b.SetBytes(int64(size))
	for i := 0; i < b.N; i++ {
		must(h.Write(piece))
	}
}

func BenchmarkSHA256Of64B(b *testing.B)  { benchmarkWrite(b, NewSHA256(), 64) }
func BenchmarkBLAKE2bOf1MB(b *testing.B) { benchmarkWrite(b, must(NewBLAKE2b(64, nil)), 1<<20) }
func BenchmarkBLAKE3Of1MB(b *testing.B)  { benchmarkWrite(b, NewBLAKE3(), 1<<20) }
