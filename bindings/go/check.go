// SPDX-License-Identifier: MIT OR Apache-2.0

package hash

// #include "library.h"
import "C"

import (
	"bytes"
	"errors"
	"fmt"
	stdhash "hash"
	"io"
	"io/fs"
	"path"
	"strconv"
	"strings"
)

// Verdict is what became of a line.
type Verdict uint32

// The verdicts. VerdictMalformed is of a line that is no entry.
const (
	VerdictMalformed  Verdict = 0
	VerdictOK         Verdict = C.SUMS_VERDICT_OK
	VerdictFailed     Verdict = C.SUMS_VERDICT_FAILED
	VerdictMissing    Verdict = C.SUMS_VERDICT_MISSING
	VerdictUnreadable Verdict = C.SUMS_VERDICT_UNREADABLE
	VerdictTooLong    Verdict = C.SUMS_VERDICT_TOO_LONG
)

var verdictNames = map[Verdict]string{
	VerdictMalformed: "MALFORMED", VerdictOK: "OK", VerdictFailed: "FAILED", VerdictMissing: "MISSING",
	VerdictUnreadable: "UNREADABLE", VerdictTooLong: "TOO LONG",
}

// String is the verdict as reports have it, such as "FAILED".
func (v Verdict) String() string {
	if name, known := verdictNames[v]; known {
		return name
	}
	return "verdict " + strconv.FormatUint(uint64(v), 10)
}

// Result is what became of a line, by its number, from 1. A malformed one has no name.
type Result struct {
	Line    uint64
	Name    string
	Verdict Verdict
}

// Report is what became of the lines of a list. Of the malformed lines so many are Untagged: they would be entries if
// their algorithm were named.
type Report struct {
	OK, Failed, Missing, Unreadable, TooLong, Malformed, Skipped, Untagged uint64

	Results []Result
}

// Passed is whether there are entries, each is OK, and no line is malformed.
func (r *Report) Passed() bool {
	return r.OK > 0 && r.Failed+r.Missing+r.Unreadable+r.TooLong+r.Malformed == 0
}

// Summary is the numbers in words.
func (r *Report) Summary() string {
	return fmt.Sprintf("%d OK, %d failed, %d missing, %d unreadable, %d too long, %d malformed (%d untagged), "+
		"%d skipped", r.OK, r.Failed, r.Missing, r.Unreadable, r.TooLong, r.Malformed, r.Untagged, r.Skipped)
}

// String is the lines of the report, as sums check prints them.
func (r *Report) String() string {
	var all []byte
	for _, result := range r.Results {
		if result.Verdict == VerdictMalformed {
			all = append(all, fmt.Sprintf("line %d: MALFORMED\n", result.Line)...)
		} else {
			// a name that was read from a line has one here
			all, _ = AppendReport(all, result.Verdict, result.Name)
		}
	}
	return string(all)
}

func (r *Report) add(line uint64, name string, verdict Verdict) {
	r.Results = append(r.Results, Result{line, name, verdict})
	switch verdict {
	case VerdictOK:
		r.OK++
	case VerdictFailed:
		r.Failed++
	case VerdictMissing:
		r.Missing++
	case VerdictUnreadable:
		r.Unreadable++
	case VerdictTooLong:
		r.TooLong++
	default:
		r.Malformed++
	}
}

// Check hashes the files of a list, and compares. The list is a file of the same file system. Untagged lines are of the
// algorithm; under AlgorithmAny each line needs a tag. What is no name in a file system, since it begins with / or has
// .. in it, is VerdictUnreadable; os.DirFS follows links. The error is why the list was not read to its end; what is wrong in
// it stands in the report.
func Check(fsys fs.FS, list string, alg Algorithm) (*Report, error) {
	report := new(Report)
	file, err := fsys.Open(list)
	if err != nil {
		return report, err
	}
	defer file.Close()
	scanner := NewListScanner(file, alg)
	scanner.KeepMalformed()
	for scanner.Scan() {
		entry := scanner.Entry()
		switch {
		case entry.Malformed == nil:
			report.add(entry.Line, entry.Name, verdictOf(fsys, &entry))
		case entry.Malformed.Untagged:
			report.Untagged++
			fallthrough
		default:
			report.add(entry.Line, "", VerdictMalformed)
		}
	}
	report.Skipped = scanner.skipped
	return report, scanner.Err()
}

// verdictOf is the verdict on the file of an entry.
func verdictOf(fsys fs.FS, entry *Entry) Verdict {
	name := cleaned(entry.Name)
	if !fs.ValidPath(name) { // not every file system asks for it
		return VerdictUnreadable
	}
	file, err := fsys.Open(name)
	if errors.Is(err, fs.ErrNotExist) {
		return VerdictMissing
	} else if err != nil {
		return VerdictUnreadable
	}
	defer file.Close()
	h, err := begunBy(entry)
	if err != nil || isFolder(entry.Name) {
		return VerdictUnreadable
	}
	if _, err := io.Copy(h, file); errors.Is(err, ErrInputTooLong) {
		return VerdictTooLong
	} else if err != nil {
		return VerdictUnreadable
	}
	if bytes.Equal(h.Sum(nil), entry.Sum) {
		return VerdictOK
	}
	return VerdictFailed
}

// isFolder is whether a name is that of a folder, which no file has.
func isFolder(name string) bool {
	return strings.HasSuffix(name, "/") || strings.HasSuffix(name, "/.")
}

// cleaned is a name as a file system takes it: without what means the folder itself. One that leaves the folder stays,
// and is no valid path.
func cleaned(name string) string {
	if strings.HasPrefix(name, "/") {
		return name
	}
	for _, element := range strings.Split(name, "/") {
		if element == ".." {
			return name
		}
	}
	return path.Clean(name)
}

// begunBy is a message of the hash of an entry.
func begunBy(entry *Entry) (stdhash.Hash, error) {
	switch entry.Hash {
	case AlgorithmSHA256:
		return NewSHA256(), nil
	case AlgorithmSHA512:
		return NewSHA512(), nil
	case AlgorithmBLAKE2b:
		return NewBLAKE2b(len(entry.Sum), nil)
	case AlgorithmBLAKE2s:
		return NewBLAKE2s(len(entry.Sum), nil)
	case AlgorithmBLAKE3:
		return NewBLAKE3(), nil
	}
	return nil, ErrNoAlgorithm
}

// AppendLine appends the line of a list with its LF, as sha256sum writes it. It is ErrNoAlgorithm, ErrDigestLength, or
// ErrNoLine if the name is empty, not UTF-8, holds NUL, or is too long; dst is then as it was.
func AppendLine(dst []byte, alg Algorithm, sum []byte, name string) ([]byte, error) {
	return appendLine(dst, alg, 0, sum, name)
}

// AppendTaggedLine appends the line that names its hash, as sha256sum --tag writes it.
func AppendTaggedLine(dst []byte, alg Algorithm, sum []byte, name string) ([]byte, error) {
	return appendLine(dst, alg, 1, sum, name)
}

func appendLine(dst []byte, alg Algorithm, isTagged C.uint32_t, sum []byte, name string) ([]byte, error) {
	digest, digestLen := pointer(sum)
	text, textLen := pointer([]byte(name))
	length := C.sums_list_line_length(C.uint32_t(alg), isTagged, digestLen, text, textLen)
	return appendWritten(dst, length, func(out *C.uint8_t) C.uint32_t {
		return C.sums_list_line(out, length, C.uint32_t(alg), isTagged, digest, digestLen, text, textLen)
	})
}

// AppendReport appends the line of a report with its LF, such as "disk.iso: OK". It is ErrNoVerdict, or ErrNoLine if the
// name is not UTF-8 or too long; dst is then as it was.
func AppendReport(dst []byte, verdict Verdict, name string) ([]byte, error) {
	text, textLen := pointer([]byte(name))
	length := C.sums_list_report_length(C.uint32_t(verdict), text, textLen)
	return appendWritten(dst, length, func(out *C.uint8_t) C.uint32_t {
		return C.sums_list_report(out, length, C.uint32_t(verdict), text, textLen)
	})
}

// appendWritten appends a line of this length, which write has the library write.
func appendWritten(dst []byte, length C.size_t, write func(*C.uint8_t) C.uint32_t) ([]byte, error) {
	line := make([]byte, length)
	out, _ := pointer(line)
	if err := checked(write(out)); err != nil {
		return dst, err
	}
	return append(dst, line...), nil
}
