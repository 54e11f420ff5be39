// SPDX-License-Identifier: MIT OR Apache-2.0

//go:build !sums_system

package hash

// #cgo CFLAGS: -DSUMS_HASH_BUNDLED
// #cgo linux,amd64 LDFLAGS: ${SRCDIR}/libsums_hash_amd64.a
// #cgo linux,arm64 LDFLAGS: ${SRCDIR}/libsums_hash_arm64.a
import "C"
