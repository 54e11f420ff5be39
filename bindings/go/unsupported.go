// SPDX-License-Identifier: MIT OR Apache-2.0

//go:build !cgo || (!sums_system && !(linux && (amd64 || arm64)))

package hash

// Where the library cannot be linked the compiler stops here, and shows this text.
const _ int = "hash needs CGO_ENABLED=1 and a C compiler, and -tags sums_system but on Linux on amd64 or arm64"
