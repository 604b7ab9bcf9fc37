#!/usr/bin/env bash
# Proves and builds the three programs, each to crates/NAME/out/NAME, where the scripts of tests/ and bench/ look for them.
cd "$(dirname "${BASH_SOURCE[0]}")/../crates" || exit 1
said=$(mktemp) || exit 1
trap 'rm -f "$said"' EXIT
for name in page audit cells; do
    (cd "$name" && rt run < stdin > /dev/null 2> "$said") || { cat "$said"; exit 1; }
done
