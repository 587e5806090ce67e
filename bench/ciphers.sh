#!/bin/sh
# Compares tdb_cbc with a plain C table implementation compiled with -O2, on texts of three sizes: the
# nanoseconds a byte that sealing and opening take under AES-128. Skips where a tool is missing.
set -eu
cd "$(dirname "$0")/.."
for tool in cc rt; do
    if ! command -v "$tool" >/dev/null 2>&1; then
        echo "skipped: $tool is missing"
        exit 0
    fi
done
folder=$(mktemp -d)
trap 'rm -rf "$folder"' EXIT
cc -O2 -o "$folder/table_aes" bench/table_aes.c
(cd crates/tdb_cipher_bench && rt run >"$folder/log" 2>&1) || { cat "$folder/log"; exit 1; }
echo "program size seal unseal (nanoseconds a byte)"
for size in 64 4096 65536; do
    echo "C $("$folder/table_aes" "$size")"
    echo "tdb $(crates/tdb_cipher_bench/out/tdb_cipher_bench "$size")"
done
