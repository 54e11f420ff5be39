// SPDX-License-Identifier: MIT OR Apache-2.0

//go:build sums_system

package hash

// #cgo pkg-config: sums_hash
import "C"
