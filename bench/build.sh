#!/usr/bin/env bash
# Links the proved library with the measuring program, into target/wire. The library must be built: see README.md.
set -eu
cd "$(dirname "$0")/.."

# Beside the pages of Rattle lies what its heap calls.
heap="$(dirname "$(rt doc)")/c"
mkdir -p target
rustc --edition 2024 -O -C target-cpu=x86-64-v2 -o target/wire bench/main.rs \
    -L "native=crates/wire_c/out" -l static=wire_c \
    -L "native=$heap" -l static=libc_c \
    -C link-arg=-Wl,--wrap=malloc,--wrap=realloc,--wrap=free
