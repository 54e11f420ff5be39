// SPDX-License-Identifier: MIT OR Apache-2.0

package hash_test

import (
	"bufio"
	"bytes"
	"crypto/sha256"
	"crypto/sha512"
	"encoding/hex"
	"encoding/json"
	"errors"
	"io"
	"io/fs"
	"os"
	"path/filepath"
	"reflect"
	"strings"
	"testing"
	"testing/iotest"

	"example.org/sums/hash"
)

var algorithms = map[string]hash.Algorithm{
	"sha256": hash.AlgorithmSHA256, "sha512": hash.AlgorithmSHA512, "blake2b": hash.AlgorithmBLAKE2b,
	"blake2s": hash.AlgorithmBLAKE2s, "blake3": hash.AlgorithmBLAKE3,
}

// cases is a group that tests/list_cases.py prints, with bytes in base64.
type cases struct {
	Files map[string][]byte
	Lists []struct {
		About, Algorithm string
		List, Report     []byte
	}
	Lines []struct {
		Algorithm    string
		Digest, Name []byte
		Tag          bool
		Line         []byte
	}
}

// eachGroup has a test try the groups of the file that LIST_CASES names.
func eachGroup(t *testing.T, try func(group *cases)) {
	name := os.Getenv("LIST_CASES")
	if name == "" {
		t.Skip("LIST_CASES names no output of tests/list_cases.py")
	}
	file, err := os.Open(name)
	if err != nil {
		t.Fatal(err)
	}
	defer file.Close()
	groups := 0
	for decoder := json.NewDecoder(bufio.NewReader(file)); decoder.More(); groups++ {
		group := new(cases)
		if err := decoder.Decode(group); err != nil {
			t.Fatal(err)
		}
		try(group)
	}
	if groups < 2 {
		t.Error("too few groups:", groups)
	}
}

// all is what a scanner gives, and why it ends.
func all(s *hash.ListScanner) (entries []hash.Entry, err error) {
	for s.Scan() {
		entries = append(entries, s.Entry())
	}
	return entries, s.Err()
}

// kept is the same with malformed lines.
func kept(r io.Reader, alg hash.Algorithm) ([]hash.Entry, error) {
	s := hash.NewListScanner(r, alg)
	s.KeepMalformed()
	return all(s)
}

// shortReader gives at most so many bytes at a time.
type shortReader struct {
	r io.Reader
	n int
}

func (s shortReader) Read(p []byte) (int, error) {
	if len(p) > s.n {
		p = p[:s.n]
	}
	return s.r.Read(p)
}

func TestListCases(t *testing.T) {
	count := 0
	eachGroup(t, func(group *cases) {
		folder := t.TempDir()
		write(t, folder, group.decoded(t))
		for _, c := range group.Lists {
			alg := algorithms[c.Algorithm]
			write(t, folder, map[string][]byte{"the list": c.List})
			report, err := hash.Check(os.DirFS(folder), "the list", alg)
			if err != nil || report.String() != string(c.Report) {
				t.Errorf("%s: %v, %.300q, not %.300q", c.About, err, report.String(), c.Report)
			}
			passes := len(c.Report) > 0 && bytes.Count(c.Report, []byte(": OK\n")) == bytes.Count(c.Report, []byte("\n"))
			if report.Passed() != passes {
				t.Error(c.About, report.Summary())
			}
			lines := bytes.Count(bytes.TrimSuffix(c.List, []byte("\n")), []byte("\n"))
			if len(c.List) > 0 {
				lines++
			}
			if len(report.Results)+int(report.Skipped) != lines {
				t.Error(c.About, report.Summary())
			}
			cut(t, c.About, c.List, alg)
			count++
		}
	})
	if !t.Skipped() && count < 900 {
		t.Error("too few lists:", count)
	}
}

// decoded is the files with their names, which are in base64 too.
func (c *cases) decoded(t *testing.T) map[string][]byte {
	files := map[string][]byte{}
	for name, content := range c.Files {
		var plain []byte
		if err := json.Unmarshal([]byte(`"`+name+`"`), &plain); err != nil {
			t.Fatal(err)
		}
		files[string(plain)] = content
	}
	return files
}

func write(t *testing.T, folder string, files map[string][]byte) {
	for name, content := range files {
		if err := os.WriteFile(filepath.Join(folder, name), content, 0o666); err != nil {
			t.Fatal(err)
		}
	}
}

// cut tries that the list means the same however its reader cuts it.
func cut(t *testing.T, about string, list []byte, alg hash.Algorithm) {
	want, err := kept(bytes.NewReader(list), alg)
	if err != nil {
		t.Error(about, err)
	}
	readers := []io.Reader{shortReader{bytes.NewReader(list), 4096}, iotest.DataErrReader(bytes.NewReader(list))}
	if len(list) < 10000 {
		readers = append(readers, shortReader{bytes.NewReader(list), 7}, iotest.OneByteReader(bytes.NewReader(list)))
	}
	for i, reader := range readers {
		if got, err := kept(reader, alg); err != nil || !reflect.DeepEqual(got, want) {
			t.Error(about, i, err)
		}
	}
}

func TestListLines(t *testing.T) {
	eachGroup(t, func(group *cases) {
		for _, c := range group.Lines {
			alg, form, read := algorithms[c.Algorithm], hash.AppendLine, algorithms[c.Algorithm]
			if c.Tag {
				form, read = hash.AppendTaggedLine, hash.AlgorithmAny
			}
			line, err := form([]byte("before"), alg, c.Digest, string(c.Name))
			if err != nil || string(line) != "before"+string(c.Line) {
				t.Errorf("%v, %q, not %q", err, line, c.Line)
			}
			got, err := all(hash.NewListScanner(bytes.NewReader(c.Line), read))
			want := []hash.Entry{{Name: string(c.Name), Sum: c.Digest, Hash: alg, Line: 1}}
			if err != nil || !reflect.DeepEqual(got, want) {
				t.Errorf("%v, %v, not %v", err, got, want)
			}
		}
	})
}

var (
	sumOfABC = sha256.Sum256([]byte("abc"))
	lineABC  = hex.EncodeToString(sumOfABC[:]) + "  abc.txt\n"
)

func TestMalformedLines(t *testing.T) {
	for _, c := range []struct {
		list string
		alg  hash.Algorithm
		want hash.MalformedError
		text string
	}{
		{lineABC + "x\n" + lineABC, hash.AlgorithmSHA256, hash.MalformedError{Line: 2}, "sums: line 2 is malformed"},
		{"\n" + lineABC, hash.AlgorithmAny, hash.MalformedError{Line: 2, Untagged: true},
			"sums: line 2 is malformed: it has no tag, and its algorithm has to be named"},
		{lineABC, hash.AlgorithmSHA512, hash.MalformedError{Line: 1, Untagged: true},
			"sums: line 1 is malformed: it has no tag, and its algorithm has to be named"},
	} {
		s := hash.NewListScanner(strings.NewReader(c.list), c.alg)
		_, err := all(s)
		var malformed *hash.MalformedError
		if !errors.As(err, &malformed) || *malformed != c.want || err.Error() != c.text {
			t.Error(c.list, err)
		}
		if s.Scan() || s.Err() != err || s.Entry().Line != 0 {
			t.Error("it goes on")
		}
		entries, err := kept(strings.NewReader(c.list), c.alg)
		if err != nil || len(entries) != strings.Count(strings.TrimPrefix(c.list, "\n"), "\n") {
			t.Error(c.list, err, entries)
		}
	}
}

// TestListReaders tries readers that fail, that give nothing, and that lie.
func TestListReaders(t *testing.T) {
	fault := errors.New("a fault")
	failing := io.MultiReader(strings.NewReader(lineABC+lineABC[:70]), iotest.ErrReader(fault))
	entries, err := all(hash.NewListScanner(failing, hash.AlgorithmSHA256))
	if err != fault || len(entries) != 1 {
		t.Error("a line that was torn:", entries, err)
	}
	if _, err := all(hash.NewListScanner(never{0}, hash.AlgorithmSHA256)); err != io.ErrNoProgress {
		t.Error(err)
	}
	for _, n := range []int{-1, 1 << 30} {
		if entries, err := all(hash.NewListScanner(never{n}, hash.AlgorithmSHA256)); err == nil || entries != nil {
			t.Error("an impossible number of bytes:", n)
		}
	}
	if _, err := all(hash.NewListScanner(strings.NewReader(lineABC), 6)); err != hash.ErrNoAlgorithm {
		t.Error(err)
	}
	if entries, err := all(hash.NewListScanner(strings.NewReader(""), 0)); err != nil || entries != nil {
		t.Error(err)
	}
	many := strings.Repeat(lineABC+"# a comment\n", 5000)
	if entries, err := all(hash.NewListScanner(strings.NewReader(many), hash.AlgorithmSHA256)); err != nil ||
		len(entries) != 5000 || entries[4999].Line != 9999 {
		t.Error(err, len(entries))
	}
}

// TestShortLines tries more lines in a piece than the room takes at a time, each with a digest of its own.
func TestShortLines(t *testing.T) {
	var list strings.Builder
	for i := 0; i < 20000; i++ {
		list.WriteString(hex.EncodeToString([]byte{byte(i)}) + "  x\n")
	}
	entries, err := all(hash.NewListScanner(strings.NewReader(list.String()), hash.AlgorithmBLAKE2b))
	if err != nil || len(entries) != 20000 {
		t.Fatal(err, len(entries))
	}
	for i, entry := range entries {
		if entry.Line != uint64(i+1) || len(entry.Sum) != 1 || entry.Sum[0] != byte(i) {
			t.Fatal(i, entry)
		}
	}
}

// never is a reader that says it has read so many bytes.
type never struct{ n int }

func (r never) Read([]byte) (int, error) { return r.n, nil }

// open is a folder as a file system that opens whatever name it gets, up to the root of the system.
type open string

func (o open) Open(name string) (fs.File, error) {
	if filepath.IsAbs(name) {
		return os.Open(name)
	}
	return os.Open(string(o) + "/" + name)
}

func TestCheckVerdicts(t *testing.T) {
	folder := filepath.Join(t.TempDir(), "inside")
	if err := os.Mkdir(folder, 0o777); err != nil {
		t.Fatal(err)
	}
	write(t, filepath.Dir(folder), map[string][]byte{"abc.txt": []byte("abc")})
	write(t, folder, map[string][]byte{"abc.txt": []byte("abc")})
	if err := os.Mkdir(filepath.Join(folder, "folder"), 0o777); err != nil {
		t.Fatal(err)
	}
	var list []byte
	want := []hash.Result{
		{Name: "abc.txt", Verdict: hash.VerdictOK}, {Name: "./abc.txt", Verdict: hash.VerdictOK},
		{Name: "folder/./../abc.txt", Verdict: hash.VerdictUnreadable}, {Name: "none", Verdict: hash.VerdictMissing},
		{Name: "folder", Verdict: hash.VerdictUnreadable}, {Name: "../abc.txt", Verdict: hash.VerdictUnreadable},
		{Name: filepath.Join(folder, "abc.txt"), Verdict: hash.VerdictUnreadable},
		{Name: "abc.txt/", Verdict: hash.VerdictUnreadable}, {Name: "abc.txt/x", Verdict: hash.VerdictUnreadable},
		{Name: "abc.txt/.", Verdict: hash.VerdictUnreadable}, {Name: "folder/.", Verdict: hash.VerdictUnreadable},
		{Name: "none/.", Verdict: hash.VerdictMissing}, {Name: "none/", Verdict: hash.VerdictMissing},
	}
	for i := range want {
		want[i].Line = uint64(i + 1)
		list, _ = hash.AppendLine(list, hash.AlgorithmSHA256, sumOfABC[:], want[i].Name)
	}
	list, _ = hash.AppendLine(list, hash.AlgorithmSHA256, make([]byte, 32), "abc.txt")
	list = append(list, "x\n#\n"+strings.Repeat("0", 128)+"  x"...)
	want = append(want, hash.Result{Line: 14, Name: "abc.txt", Verdict: hash.VerdictFailed}, hash.Result{Line: 15},
		hash.Result{Line: 17})
	write(t, folder, map[string][]byte{"SUMS": list})
	summary := "2 OK, 1 failed, 3 missing, 8 unreadable, 0 too long, 2 malformed (1 untagged), 1 skipped"
	for _, fsys := range []fs.FS{os.DirFS(folder), open(folder)} {
		report, err := hash.Check(fsys, "SUMS", hash.AlgorithmSHA256)
		if err != nil || !reflect.DeepEqual(report.Results, want) || report.Summary() != summary || report.Untagged != 1 {
			t.Error(err, report.Results, report.Summary())
		}
	}
	if _, err := hash.Check(os.DirFS(folder), "none", hash.AlgorithmSHA256); !errors.Is(err, fs.ErrNotExist) {
		t.Error(err)
	}
	if report, err := hash.Check(os.DirFS(folder), "folder", hash.AlgorithmSHA256); err == nil || report.Passed() {
		t.Error("a folder is a list")
	}
}

func TestNoLines(t *testing.T) {
	dst, long := []byte("before"), sha512.Sum512(nil)
	for _, c := range []struct {
		alg  hash.Algorithm
		sum  []byte
		name string
		want error
	}{
		{hash.AlgorithmAny, sumOfABC[:], "x", hash.ErrNoAlgorithm}, {6, sumOfABC[:], "x", hash.ErrNoAlgorithm},
		{hash.AlgorithmSHA256, long[:], "x", hash.ErrDigestLength}, {hash.AlgorithmBLAKE2b, nil, "x", hash.ErrDigestLength},
		{hash.AlgorithmSHA256, sumOfABC[:], "", hash.ErrNoLine}, {hash.AlgorithmSHA256, sumOfABC[:], "\xff", hash.ErrNoLine},
		{hash.AlgorithmSHA256, sumOfABC[:], "a\x00", hash.ErrNoLine},
		{hash.AlgorithmSHA256, sumOfABC[:], strings.Repeat("x", 65471), hash.ErrNoLine},
	} {
		for _, form := range []func([]byte, hash.Algorithm, []byte, string) ([]byte, error){hash.AppendLine, hash.AppendTaggedLine} {
			if got, err := form(dst, c.alg, c.sum, c.name); err != c.want || string(got) != "before" {
				t.Error(c.alg, err)
			}
		}
	}
	if _, err := hash.AppendReport(dst, hash.VerdictMalformed, "x"); err != hash.ErrNoVerdict {
		t.Error(err)
	}
	if _, err := hash.AppendReport(dst, hash.VerdictOK, "\xff"); err != hash.ErrNoLine {
		t.Error(err)
	}
	if got, err := hash.AppendReport(dst, hash.VerdictTooLong, "a\nb"); err != nil || string(got) != "beforea\\nb: TOO LONG\n" {
		t.Error(err, got)
	}
}
