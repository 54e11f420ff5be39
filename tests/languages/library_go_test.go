package hash

// The hashes and HKDF beside golang.org/x/crypto and lukechampine.com/blake3 on random data: tests/languages/bindings puts this file
// into the module.

import (
	"bytes"
	stdhash "hash"
	"io"
	"math/rand"
	"testing"

	"crypto/sha256"
	"crypto/sha512"

	"golang.org/x/crypto/blake2b"
	"golang.org/x/crypto/blake2s"
	"golang.org/x/crypto/hkdf"
	"lukechampine.com/blake3"
)

const cases = 3000

var random = rand.New(rand.NewSource(7))

func some(most int) []byte {
	data := make([]byte, random.Intn(most+1))
	random.Read(data)
	return data
}

// alike says whether two hashes have the same digest of a message in two pieces, the same sizes, and after Reset the
// same digest of nothing.
func alike(t *testing.T, i int, ours, theirs stdhash.Hash) {
	t.Helper()
	data := some(5000)
	cut := random.Intn(len(data) + 1)
	for _, piece := range [][]byte{data[:cut], data[cut:]} {
		must(ours.Write(piece))
		must(theirs.Write(piece))
	}
	if !bytes.Equal(ours.Sum(nil), theirs.Sum(nil)) {
		t.Fatal("digest", i)
	}
	if ours.Size() != theirs.Size() || ours.BlockSize() != theirs.BlockSize() {
		t.Fatal("sizes", i)
	}
	ours.Reset()
	theirs.Reset()
	if !bytes.Equal(ours.Sum(nil), theirs.Sum(nil)) {
		t.Fatal("after Reset", i)
	}
}

func TestPeerBLAKE2b(t *testing.T) {
	for i := 0; i < cases; i++ {
		size, key := 1+random.Intn(64), some(64)
		alike(t, i, must(NewBLAKE2b(size, key)), must(blake2b.New(size, key)))
	}
}

func TestPeerBLAKE2s(t *testing.T) {
	for i := 0; i < cases; i++ {
		key := some(32)
		alike(t, i, must(NewBLAKE2s(32, key)), must(blake2s.New256(key)))
	}
}

func TestPeerHKDF(t *testing.T) {
	for i := 0; i < cases; i++ {
		material, salt, info, want := some(200), some(200), some(200), make([]byte, random.Intn(8161))
		must(io.ReadFull(hkdf.New(sha256.New, material, salt, info), want))
		if got := must(HKDFSHA256(len(want), material, salt, info)); !bytes.Equal(got, want) {
			t.Fatal("SHA-256", i)
		}
		prk := hkdf.Extract(sha256.New, material, salt)
		if got := must(HKDFExtractSHA256(material, salt)); !bytes.Equal(got, prk) {
			t.Fatal("extract", i)
		}
		if got := must(HKDFExpandSHA256(len(want), prk, info)); !bytes.Equal(got, want) {
			t.Fatal("expand", i)
		}
		must(io.ReadFull(hkdf.New(sha512.New, material, salt, info), want))
		if got := must(HKDFSHA512(len(want), material, salt, info)); !bytes.Equal(got, want) {
			t.Fatal("SHA-512", i)
		}
	}
}

func TestPeerBLAKE3(t *testing.T) {
	for i := 0; i < cases; i++ {
		key := make([]byte, 32)
		random.Read(key)
		alike(t, i, NewBLAKE3(), blake3.New(32, nil))
		ours, theirs := must(NewBLAKE3Keyed(key)), blake3.New(32, key)
		data, got, want := some(5000), make([]byte, 300), make([]byte, 300)
		must(ours.Write(data))
		must(theirs.Write(data))
		// version 1.1.6 of the other seeks to multiples of 1,024 alone: elsewhere its bytes are not those that it reads
		// there itself from a place before
		at := int64(random.Intn(1<<30)) << 10
		output, other := ours.XOF(), theirs.XOF()
		must(output.Seek(at, io.SeekStart))
		must(other.Seek(at, io.SeekStart))
		must(io.ReadFull(output, got))
		must(io.ReadFull(other, want))
		if !bytes.Equal(got, want) {
			t.Fatal("output", i)
		}
	}
}
