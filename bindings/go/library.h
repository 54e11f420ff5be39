/* The header of the library. Where that does not come with these sources, the compiler stops here and says so.
 * SPDX-License-Identifier: MIT OR Apache-2.0 */
#if !defined SUMS_HASH_BUNDLED
#include "sums_hash.h"
#elif defined __aarch64__ ? __has_include("libsums_hash_arm64.a") : __has_include("libsums_hash_amd64.a")
#include "sums_hash.h"
#else
#error these sources are without the library: build them with -tags sums_system, or take the zip of a release
#endif
