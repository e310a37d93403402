#!/usr/bin/env bash
# A few hundred metas through protoc, both ways. Skipped where protoc or rustc is missing. It builds the library of
# crates/wire_c first, which the gate proves and doesn't build.
set -u
cd "$(dirname "$0")/.." || exit 1

for tool in protoc rustc; do
    if ! command -v "$tool" >/dev/null; then
        echo "protoc: skipped, as $tool is missing"
        exit 0
    fi
done
if [ ! -f crates/wire_c/out/libwire_c.a ] && ! (cd crates/wire_c && rt lib >/dev/null 2>&1); then
    echo 'protoc: 0 passed, 1 failed, as the library of crates/wire_c was not built'
    exit 1
fi
if ! bench/build.sh; then
    echo 'protoc: 0 passed, 1 failed, as the program was not linked'
    exit 1
fi
target/wire protoc bench/meta.proto 300
