#!/bin/sh
# Prints one checksum of all that the proved archive is made from: the sources, definitions and proofs of the crates.
cd "$(dirname "$0")/.." || exit 1
{
    cat crates.txt
    find crates -path 'crates/*/out' -prune -o -type f \( -name '*.rt' -o -name '*.antt' \) -print | LC_ALL=C sort | xargs sha256sum
} | sha256sum | cut -d ' ' -f 1
