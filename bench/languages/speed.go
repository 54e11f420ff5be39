// One call of the module beside x/crypto and Go's own: speed ROUNDS    a row for each function and size.
package main

import (
	"bytes"
	"crypto/hmac"
	"crypto/sha256"
	"fmt"
	stdhash "hash"
	"os"
	"strconv"
	"time"

	"example.org/sums/hash"
	"golang.org/x/crypto/blake2b"
	"golang.org/x/crypto/blake2s"
	"lukechampine.com/blake3"
)

const least = 1e7 // nanoseconds of one measurement

func nanoseconds(call func() []byte, times int) float64 {
	start := time.Now()
	for i := 0; i < times; i++ {
		call()
	}
	return float64(time.Since(start).Nanoseconds()) / float64(times)
}

func row(name string, size int, peer string, ours, theirs func() []byte) {
	if !bytes.Equal(ours(), theirs()) {
		panic(name)
	}
	times := int(least/nanoseconds(theirs, 3)) + 1
	rounds, err := strconv.Atoi(os.Args[1])
	if err != nil {
		panic(err)
	}
	mine, other := nanoseconds(ours, times), nanoseconds(theirs, times)
	for i := 1; i < rounds; i++ {
		if n := nanoseconds(ours, times); n < mine {
			mine = n
		}
		if n := nanoseconds(theirs, times); n < other {
			other = n
		}
	}
	fmt.Printf("Go|%s|%d|%s|%.0f|%.0f\n", name, size, peer, mine, other)
}

func must[T any](value T, err error) T {
	if err != nil {
		panic(err)
	}
	return value
}

// atOnce has the rows of the calls on a whole message.
func atOnce(data []byte) {
	row("blake2b at once", len(data), "x/crypto",
		func() []byte { digest := hash.SumBLAKE2b(data); return digest[:] },
		func() []byte { digest := blake2b.Sum512(data); return digest[:] })
	row("blake2s at once", len(data), "x/crypto",
		func() []byte { digest := hash.SumBLAKE2s(data); return digest[:] },
		func() []byte { digest := blake2s.Sum256(data); return digest[:] })
	row("blake3 at once", len(data), "lukechampine.com/blake3",
		func() []byte { digest := hash.SumBLAKE3(data); return digest[:] },
		func() []byte { digest := blake3.Sum256(data); return digest[:] })
	row("sha256 at once", len(data), "crypto/sha256",
		func() []byte { digest := hash.SumSHA256(data); return digest[:] },
		func() []byte { digest := sha256.Sum256(data); return digest[:] })
}

func main() {
	for _, size := range []int{64, 1 << 20} {
		data := make([]byte, size)
		for i := range data {
			data[i] = byte(i % 251)
		}
		of := func(begin func() stdhash.Hash) func() []byte {
			return func() []byte {
				h := begin()
				h.Write(data)
				return h.Sum(nil)
			}
		}
		if size == 64 {
			atOnce(data)
		}
		row("blake2b", size, "x/crypto",
			of(func() stdhash.Hash { return must(hash.NewBLAKE2b(64, nil)) }),
			of(func() stdhash.Hash { return must(blake2b.New512(nil)) }))
		row("blake2s", size, "x/crypto",
			of(func() stdhash.Hash { return must(hash.NewBLAKE2s(32, nil)) }),
			of(func() stdhash.Hash { return must(blake2s.New256(nil)) }))
		row("blake3", size, "lukechampine.com/blake3",
			of(func() stdhash.Hash { return hash.NewBLAKE3() }),
			of(func() stdhash.Hash { return blake3.New(32, nil) }))
		row("sha256", size, "crypto/sha256",
			of(func() stdhash.Hash { return hash.NewSHA256() }), of(sha256.New))
		row("hmac-sha256", size, "crypto/hmac",
			of(func() stdhash.Hash { return must(hash.NewHMACSHA256([]byte("key"))) }),
			of(func() stdhash.Hash { return hmac.New(sha256.New, []byte("key")) }))
	}
}
