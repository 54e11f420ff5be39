// The entries of a list by the module beside a parser in Go: speed ROUNDS LIST
package main

import (
	"bytes"
	"encoding/hex"
	"fmt"
	"math"
	"os"
	"strconv"
	"strings"
	"time"
	"unicode/utf8"

	"example.org/sums/hash"
)

type entry struct {
	name string
	sum  []byte
}

var unescaped = strings.NewReplacer(`\\`, `\`, `\n`, "\n", `\r`, "\r")

// entryOf is the entry of a line of a list of SHA-256; false for one that is skipped.
func entryOf(line []byte) (entry, bool) {
	line = bytes.TrimSuffix(line, []byte("\r"))
	if len(line) == 0 || line[0] == '#' {
		return entry{}, false
	}
	text := bytes.TrimPrefix(line, []byte(`\`))
	var digits, name []byte
	if rest := bytes.TrimPrefix(text, []byte("SHA256 (")); len(rest) < len(text) && len(rest) > 68 {
		name, digits = rest[:len(rest)-68], rest[len(rest)-64:]
	} else if len(text) > 66 && text[64] == ' ' && (text[65] == ' ' || text[65] == '*') {
		digits, name = text[:64], text[66:]
	} else {
		panic("malformed")
	}
	sum := make([]byte, 32)
	if _, err := hex.Decode(sum, digits); err != nil || !utf8.Valid(name) || bytes.IndexByte(name, 0) >= 0 {
		panic("malformed")
	}
	if len(text) < len(line) {
		return entry{unescaped.Replace(string(name)), sum}, true
	}
	return entry{string(name), sum}, true
}

func ours(data []byte) (all []entry) {
	scanner := hash.NewListScanner(bytes.NewReader(data), hash.AlgorithmSHA256)
	for scanner.Scan() {
		all = append(all, entry{scanner.Entry().Name, scanner.Entry().Sum})
	}
	if scanner.Err() != nil {
		panic(scanner.Err())
	}
	return all
}

func theirs(data []byte) (all []entry) {
	for _, line := range bytes.Split(data, []byte("\n")) {
		if each, is := entryOf(line); is {
			all = append(all, each)
		}
	}
	return all
}

func linesASecond(call func([]byte) []entry, data []byte) float64 {
	begun := time.Now()
	all := call(data)
	return float64(len(all)) / time.Since(begun).Seconds()
}

func main() {
	rounds, _ := strconv.Atoi(os.Args[1])
	data, err := os.ReadFile(os.Args[2])
	if err != nil || fmt.Sprint(ours(data)) != fmt.Sprint(theirs(data)) {
		panic("the entries differ")
	}
	var best [2]float64
	for i := 0; i < rounds; i++ {
		best[0] = math.Max(best[0], linesASecond(ours, data))
		best[1] = math.Max(best[1], linesASecond(theirs, data))
	}
	fmt.Printf("Go|%.0f|%.0f\n", best[0], best[1])
}
