#!/usr/bin/env bash
# Proves and builds with the Rattle toolchain what is used outside of it: `archive`, the library for C, as target/staticlib/libnichelarder.a; `listing`, the
# listing program, as target/bin/listing. It takes minutes where the crates are not proved yet, and says how far it is on standard error.
set -euo pipefail
cd "$(dirname "$0")/.."
case "${1:-}" in
    archive)
        (cd crates/nichelarder_c && rt lib >&2)
        mkdir -p target/staticlib
        cp crates/nichelarder_c/out/libnichelarder_c.a target/staticlib/libnichelarder.a
        ;;
    listing)
        (cd crates/listing && rt run <stdin >/dev/null)
        mkdir -p target/bin
        cp crates/listing/out/listing target/bin/listing
        ;;
    *)
        echo "usage: build.sh archive|listing" >&2
        exit 2
        ;;
esac
