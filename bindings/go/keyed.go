// SPDX-License-Identifier: MIT OR Apache-2.0

package hash

// #include "library.h"
import "C"

// ---- HMAC

// NewHMACSHA256 begins a message for a tag by HMAC (RFC 2104) over SHA-256, under a key of any length.
func NewHMACSHA256(key []byte) (*Hash, error) {
	begun := hmacSHA256Function.state()
	at, n := pointer(key)
	status := C.sums_hmac_sha256_init((*C.sums_hmac_sha256_state)(begun.memory()), at, n)
	return newHash(&hmacSHA256Function, 32, begun, status)
}

// NewHMACSHA512 begins a message for a tag by HMAC over SHA-512, under a key of any length.
func NewHMACSHA512(key []byte) (*Hash, error) {
	begun := hmacSHA512Function.state()
	at, n := pointer(key)
	status := C.sums_hmac_sha512_init((*C.sums_hmac_sha512_state)(begun.memory()), at, n)
	return newHash(&hmacSHA512Function, 64, begun, status)
}

// NewHMACBLAKE2b begins a message for a tag by HMAC over BLAKE2b of 64 bytes, under a key of any length.
func NewHMACBLAKE2b(key []byte) (*Hash, error) {
	begun := hmacBLAKE2bFunction.state()
	at, n := pointer(key)
	status := C.sums_hmac_blake2b_init((*C.sums_hmac_blake2b_state)(begun.memory()), at, n)
	return newHash(&hmacBLAKE2bFunction, 64, begun, status)
}

// NewHMACBLAKE2s begins a message for a tag by HMAC over BLAKE2s of 32 bytes, under a key of any length.
func NewHMACBLAKE2s(key []byte) (*Hash, error) {
	begun := hmacBLAKE2sFunction.state()
	at, n := pointer(key)
	status := C.sums_hmac_blake2s_init((*C.sums_hmac_blake2s_state)(begun.memory()), at, n)
	return newHash(&hmacBLAKE2sFunction, 32, begun, status)
}

// ---- HKDF

// derived is a key of size bytes, which write fills; there are 255 digests of them. Of more, one more is asked for, and
// refused by the library, so that there has to be no room for them.
func derived(size, digest int, write func(*C.uint8_t, C.size_t) C.uint32_t) ([]byte, error) {
	if most := 255 * digest; size < 0 || size > most {
		size = most + 1
	}
	key := make([]byte, size)
	if err := checked(write(pointer(key))); err != nil {
		return nil, err
	}
	return key, nil
}

// HKDFSHA256 is a key of size bytes, by HKDF (RFC 5869) over SHA-256: at most 8,160. A nil salt is none.
func HKDFSHA256(size int, material, salt, info []byte) ([]byte, error) {
	m, mn := pointer(material)
	s, sn := pointer(salt)
	i, in := pointer(info)
	return derived(size, 32, func(at *C.uint8_t, n C.size_t) C.uint32_t {
		return C.sums_hkdf_sha256(at, n, m, mn, s, sn, i, in)
	})
}

// HKDFSHA512 is a key of size bytes, by HKDF over SHA-512: at most 16,320. A nil salt is none.
func HKDFSHA512(size int, material, salt, info []byte) ([]byte, error) {
	m, mn := pointer(material)
	s, sn := pointer(salt)
	i, in := pointer(info)
	return derived(size, 64, func(at *C.uint8_t, n C.size_t) C.uint32_t {
		return C.sums_hkdf_sha512(at, n, m, mn, s, sn, i, in)
	})
}

// HKDFBLAKE2b is a key of size bytes, by HKDF over BLAKE2b of 64 bytes: at most 16,320. A nil salt is none.
func HKDFBLAKE2b(size int, material, salt, info []byte) ([]byte, error) {
	m, mn := pointer(material)
	s, sn := pointer(salt)
	i, in := pointer(info)
	return derived(size, 64, func(at *C.uint8_t, n C.size_t) C.uint32_t {
		return C.sums_hkdf_blake2b(at, n, m, mn, s, sn, i, in)
	})
}

// HKDFBLAKE2s is a key of size bytes, by HKDF over BLAKE2s of 32 bytes: at most 8,160. A nil salt is none.
func HKDFBLAKE2s(size int, material, salt, info []byte) ([]byte, error) {
	m, mn := pointer(material)
	s, sn := pointer(salt)
	i, in := pointer(info)
	return derived(size, 32, func(at *C.uint8_t, n C.size_t) C.uint32_t {
		return C.sums_hkdf_blake2s(at, n, m, mn, s, sn, i, in)
	})
}

// HKDFExtractSHA256 is the first step of HKDF over SHA-256: the pseudorandom key, of 32 bytes. A nil salt is none.
func HKDFExtractSHA256(material, salt []byte) ([]byte, error) {
	m, mn := pointer(material)
	s, sn := pointer(salt)
	return derived(32, 32, func(at *C.uint8_t, _ C.size_t) C.uint32_t {
		return C.sums_hkdf_extract_sha256(at, m, mn, s, sn)
	})
}

// HKDFExpandSHA256 is the second step of HKDF over SHA-256: a key of size bytes, at most 8,160, of a pseudorandom
// key of 32 bytes or more.
func HKDFExpandSHA256(size int, prk, info []byte) ([]byte, error) {
	p, pn := pointer(prk)
	i, in := pointer(info)
	return derived(size, 32, func(at *C.uint8_t, n C.size_t) C.uint32_t {
		return C.sums_hkdf_expand_sha256(at, n, p, pn, i, in)
	})
}

// HKDFExtractSHA512 is the first step of HKDF over SHA-512: the pseudorandom key, of 64 bytes.
func HKDFExtractSHA512(material, salt []byte) ([]byte, error) {
	m, mn := pointer(material)
	s, sn := pointer(salt)
	return derived(64, 64, func(at *C.uint8_t, _ C.size_t) C.uint32_t {
		return C.sums_hkdf_extract_sha512(at, m, mn, s, sn)
	})
}

// HKDFExpandSHA512 is the second step of HKDF over SHA-512: a key of size bytes, at most 16,320, of a pseudorandom
// key of 64 bytes or more.
func HKDFExpandSHA512(size int, prk, info []byte) ([]byte, error) {
	p, pn := pointer(prk)
	i, in := pointer(info)
	return derived(size, 64, func(at *C.uint8_t, n C.size_t) C.uint32_t {
		return C.sums_hkdf_expand_sha512(at, n, p, pn, i, in)
	})
}

// HKDFExtractBLAKE2b is the first step of HKDF over BLAKE2b of 64 bytes: the pseudorandom key, of 64 bytes.
func HKDFExtractBLAKE2b(material, salt []byte) ([]byte, error) {
	m, mn := pointer(material)
	s, sn := pointer(salt)
	return derived(64, 64, func(at *C.uint8_t, _ C.size_t) C.uint32_t {
		return C.sums_hkdf_extract_blake2b(at, m, mn, s, sn)
	})
}

// HKDFExpandBLAKE2b is the second step of HKDF over BLAKE2b of 64 bytes: a key of size bytes, at most 16,320, of a
// pseudorandom key of 64 bytes or more.
func HKDFExpandBLAKE2b(size int, prk, info []byte) ([]byte, error) {
	p, pn := pointer(prk)
	i, in := pointer(info)
	return derived(size, 64, func(at *C.uint8_t, n C.size_t) C.uint32_t {
		return C.sums_hkdf_expand_blake2b(at, n, p, pn, i, in)
	})
}

// HKDFExtractBLAKE2s is the first step of HKDF over BLAKE2s of 32 bytes: the pseudorandom key, of 32 bytes.
func HKDFExtractBLAKE2s(material, salt []byte) ([]byte, error) {
	m, mn := pointer(material)
	s, sn := pointer(salt)
	return derived(32, 32, func(at *C.uint8_t, _ C.size_t) C.uint32_t {
		return C.sums_hkdf_extract_blake2s(at, m, mn, s, sn)
	})
}

// HKDFExpandBLAKE2s is the second step of HKDF over BLAKE2s of 32 bytes: a key of size bytes, at most 8,160, of a
// pseudorandom key of 32 bytes or more.
func HKDFExpandBLAKE2s(size int, prk, info []byte) ([]byte, error) {
	p, pn := pointer(prk)
	i, in := pointer(info)
	return derived(size, 32, func(at *C.uint8_t, n C.size_t) C.uint32_t {
		return C.sums_hkdf_expand_blake2s(at, n, p, pn, i, in)
	})
}
