#!/usr/bin/env bash
# The unit tests of the second implementation.
set -u

top=$(CDPATH='' cd -- "$(dirname -- "${BASH_SOURCE[0]}")/.." && pwd) || exit 1

if ! said=$(cargo test --release --offline --locked \
    --manifest-path "$top/reference/Cargo.toml" --target-dir "$top/target/cargo" 2>&1 </dev/null); then
    printf '%s\n' "$said" "cargo test failed" >&2
    exit 1
fi

# A run without a test is none.
if ! grep -Eq '^test result: ok\. [1-9][0-9]* passed' <<<"$said"; then
    printf '%s\n' "$said" "cargo test ran no test" >&2
    exit 1
fi
