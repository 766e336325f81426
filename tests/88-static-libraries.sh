#!/usr/bin/env bash
# What a program that links the static libraries has to bring: memmove for the digest, and nothing for the cutting.
set -u

top=$(CDPATH='' cd -- "$(dirname -- "${BASH_SOURCE[0]}")/.." && pwd) || exit 1

if ! said=$("$top/tools/staticlibs" 2>&1 </dev/null); then
    printf '%s\n' "$said" "tools/staticlibs failed" >&2
    exit 1
fi

needs() { # needs LIBRARY NAMES: what the library does not define is just these names
    local archive=$top/target/staticlib/lib$1.a asked exported
    exported=$(nm -g --defined-only -- "$archive" | awk '$2 == "T" { print $3 }' | sort | paste -sd' ') || exit 1
    if [ -z "$exported" ]; then
        echo "lib$1.a exports nothing" >&2
        exit 1
    fi
    asked=$(nm -u -- "$archive" | awk '$1 == "U" { print $2 }' | sort -u | paste -sd' ') || exit 1
    if [ "$asked" != "$2" ]; then
        echo "lib$1.a asks for '$asked', and not for '$2'" >&2
        exit 1
    fi
    echo "lib$1.a exports $exported, and asks for: ${asked:-nothing}"
}

needs digest memmove
needs cutting ''
