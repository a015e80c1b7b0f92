#!/usr/bin/env bash
# Runs the harness under valgrind: `./valgrind.sh [SEED [COUNT]]`. All memory is lent in allocations of exactly its length, so a
# call that reads or writes past it, or that uses what nobody wrote, is reported; the exit status is 9 then, 1 where two sides
# differ, and else 0.
set -eu
cd "$(dirname "$0")"
command -v valgrind >/dev/null 2>&1 || {
    echo "valgrind.sh: valgrind is not on the PATH: install it" >&2
    exit 2
}
# A folder of its own: the harness is built otherwise here, with names for valgrind's reports.
CARGO_PROFILE_RELEASE_DEBUG=1 cargo build --release --offline --quiet --target-dir target/exact \
    -p differential --bin harness --features differential/exact
exec valgrind -q --error-exitcode=9 --child-silent-after-fork=yes target/exact/release/harness "${1:-1}" "${2:-5000}"
