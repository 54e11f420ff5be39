# SPDX-License-Identifier: MIT OR Apache-2.0
"""Checks downloads by their list, as `sha256sum -c` does: python3 bindings/python/examples/download.py SHA256SUMS FOLDER
No name of the list leaves the folder."""

import sys

import sums_hash

report = sums_hash.check(sys.argv[1], "sha256", folder=sys.argv[2], inside=True)
sys.stdout.buffer.writelines(report.lines)
sys.exit(0 if report else f"{sys.argv[1]}: {report}")
