// SPDX-License-Identifier: MIT OR Apache-2.0

package hash_test

import (
	"errors"
	"fmt"
	"io"
	"strings"
	"testing/fstest"

	"example.org/sums/hash"
)

func Example() {
	h, err := hash.NewBLAKE2s(32, nil)
	if err != nil {
		panic(err)
	}
	io.WriteString(h, "abc")
	fmt.Printf("%x\n", h.Sum(nil))

	tag, err := hash.NewHMACSHA256([]byte("key"))
	if err != nil {
		panic(err)
	}
	io.WriteString(tag, "abc")
	fmt.Printf("%x\n", tag.Sum(nil))

	_, err = hash.NewBLAKE2b(65, nil)
	fmt.Println(errors.Is(err, hash.ErrDigestLength))
	// Output:
	// 508c5e8c327c14e2e1a72ba34eeb452f37458b209ed63a294d999b4c86675982
	// 9c196e32dc0175f86f4b1cb89289d6619de6bee699e4c378e68309ed97a1a6ab
	// true
}

func ExampleBLAKE3_XOF() {
	h := hash.NewBLAKE3()
	io.WriteString(h, "abc")
	output := h.XOF()
	output.Seek(64, io.SeekStart)
	bytes := make([]byte, 8)
	io.ReadFull(output, bytes)
	fmt.Printf("%x\n", bytes)
	// Output: c08a1fb0b38ed276
}

func ExampleHKDFSHA256() {
	key, err := hash.HKDFSHA256(8, []byte("secret"), nil, []byte("what for"))
	fmt.Printf("%x %v\n", key, err)
	// Output: 35d170c4abafc00e <nil>
}

const list = "ba7816bf8f01cfea414140de5dae2223b00361a396177a9cb410ff61f20015ad  disk.iso\n" +
	"SHA256 (a.iso) = ba7816bf8f01cfea414140de5dae2223b00361a396177a9cb410ff61f20015ad\n"

func ExampleCheck() {
	downloads := fstest.MapFS{"SHA256SUMS": {Data: []byte(list)}, "disk.iso": {Data: []byte("abc")}} // or os.DirFS
	report, err := hash.Check(downloads, "SHA256SUMS", hash.AlgorithmSHA256)
	fmt.Print(report)
	fmt.Println(report.Passed(), err)
	// Output:
	// disk.iso: OK
	// a.iso: MISSING
	// false <nil>
}

func ExampleListScanner() {
	scanner := hash.NewListScanner(strings.NewReader(list+"?\n"), hash.AlgorithmSHA256)
	for scanner.Scan() {
		entry := scanner.Entry()
		fmt.Printf("%d %s %s %x\n", entry.Line, entry.Name, entry.Hash, entry.Sum[:4])
	}
	fmt.Println(scanner.Err())
	// Output:
	// 1 disk.iso sha256 ba7816bf
	// 2 a.iso sha256 ba7816bf
	// sums: line 3 is malformed
}
