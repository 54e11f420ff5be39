package hash

// The vectors of the standards, by every function that has them: tests/languages/bindings puts this file into the module, and names
// the folder of the tables by VECTORS.

import (
	"bytes"
	"encoding/hex"
	stdhash "hash"
	"io"
	"os"
	"path/filepath"
	"strconv"
	"strings"
	"testing"
)

// table is the rows of a file, each its cells by their headings.
func table(t *testing.T, name string) (rows []map[string]string) {
	text := must(os.ReadFile(filepath.Join(os.Getenv("VECTORS"), name+".tsv")))
	var headings []string
	for _, line := range strings.Split(strings.TrimSpace(string(text)), "\n") {
		cells := strings.Split(line, "\t")
		if strings.HasPrefix(line, "#") {
			continue
		} else if headings == nil {
			headings = cells
			continue
		}
		row := map[string]string{}
		for i, heading := range headings {
			row[heading] = cells[i]
		}
		rows = append(rows, row)
	}
	if len(rows) == 0 {
		t.Fatal("no rows of", name)
	}
	return rows
}

// spelled is the bytes that a cell stands for; of none there are nil.
func spelled(cell string) (data []byte) {
	word, rest, _ := strings.Cut(cell, ":")
	number := func(digits string, base int) int { return int(must(strconv.ParseInt(digits, base, 64))) }
	switch first, count, _ := strings.Cut(rest, ":"); word {
	case "text":
		data = []byte(rest)
	case "hex":
		data = must(hex.DecodeString(rest))
	case "cycle":
		for i := 0; i < number(rest, 10); i++ {
			data = append(data, byte(i%251))
		}
	case "count":
		for i := 0; i < number(count, 10); i++ {
			data = append(data, byte(number(first, 10)+i))
		}
	case "repeat":
		data = bytes.Repeat([]byte{byte(number(first, 16))}, number(count, 10))
	}
	return data
}

// digestIs compares the sum of a message in two pieces.
func digestIs(t *testing.T, row map[string]string, h stdhash.Hash, message, want []byte) {
	t.Helper()
	must(h.Write(message[:len(message)/2]))
	must(h.Write(message[len(message)/2:]))
	if got := h.Sum(nil); !bytes.Equal(got, want) || h.Size() != len(want) {
		t.Error(row, got)
	}
}

func TestVectorsBLAKE2(t *testing.T) {
	for _, row := range table(t, "blake2") {
		message, want := spelled(row["message"]), must(hex.DecodeString(row["digest"]))
		key, salt, person := spelled(row["key"]), spelled(row["salt"]), spelled(row["personal"])
		begin, whole := NewBLAKE2bSalted, func(data []byte) []byte { sum := SumBLAKE2b(data); return sum[:] }
		if row["hash"] == "blake2s" {
			begin, whole = NewBLAKE2sSalted, func(data []byte) []byte { sum := SumBLAKE2s(data); return sum[:] }
		}
		digestIs(t, row, must(begin(len(want), key, salt, person)), message, want)
		if sum := whole(message); key == nil && salt == nil && person == nil && len(want) == len(sum) && !bytes.Equal(sum, want) {
			t.Error(row, sum)
		}
	}
}

func TestVectorsBLAKE3(t *testing.T) {
	for _, row := range table(t, "blake3") {
		h := NewBLAKE3()
		if key := spelled(row["key"]); key != nil {
			h = must(NewBLAKE3Keyed(key))
		} else if context := spelled(row["context"]); context != nil {
			h = NewBLAKE3Derive(string(context))
		}
		must(h.Write(spelled(row["message"])))
		want := must(hex.DecodeString(row["output"]))
		got, output := make([]byte, len(want)), h.XOF()
		must(output.Seek(must(strconv.ParseInt(row["position"], 10, 64)), io.SeekStart))
		if must(io.ReadFull(output, got)); !bytes.Equal(got, want) {
			t.Error(row, got)
		}
	}
}

func TestVectorsSHA2(t *testing.T) {
	for _, row := range table(t, "sha2") {
		message, want := spelled(row["message"]), must(hex.DecodeString(row["digest"]))
		digestIs(t, row, makers[row["hash"]](), message, want)
	}
}

func TestVectorsHMAC(t *testing.T) {
	begins := map[string]func([]byte) (*Hash, error){
		"sha256": NewHMACSHA256, "sha512": NewHMACSHA512, "blake2b": NewHMACBLAKE2b, "blake2s": NewHMACBLAKE2s,
	}
	for _, row := range table(t, "hmac") {
		h, want := must(begins[row["hash"]](spelled(row["key"]))), must(hex.DecodeString(row["tag"]))
		must(h.Write(spelled(row["text"])))
		if tag := h.Sum(nil); !bytes.HasPrefix(tag, want) || len(tag) != h.Size() {
			t.Error(row, tag)
		}
	}
}

func TestVectorsHKDF(t *testing.T) {
	for _, row := range table(t, "hkdf") {
		of := keysOf[row["hash"]]
		material, salt, info := spelled(row["material"]), spelled(row["salt"]), spelled(row["info"])
		prk, want := must(hex.DecodeString(row["prk"])), must(hex.DecodeString(row["okm"]))
		if got := must(of.extract(material, salt)); !bytes.Equal(got, prk) {
			t.Error(row, "extract", got)
		}
		if got := must(of.expand(len(want), prk, info)); !bytes.Equal(got, want) {
			t.Error(row, "expand", got)
		}
		if got := must(of.whole(len(want), material, salt, info)); !bytes.Equal(got, want) {
			t.Error(row, got)
		}
	}
}
