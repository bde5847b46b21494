#!/usr/bin/env bash
# The evening of examples/venue, held to its stored transcript.
set -euo pipefail
cd "$(dirname "$0")/.."
.ci/need gcc libcrypto
examples/venue/run --check
