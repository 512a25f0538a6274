#!/usr/bin/env bash
# The recording core side by side with a tuned Rust version of the same calls; prints Markdown tables. --quick leaves out the largest disc.
# --commands takes the times of the commands of the program station instead, in TMPDIR or where temporary files are.
# Not part of the tests: figures depend on the machine. Needs 1 GB of memory.
set -eu
cd "$(dirname "$0")"
. host/setup.sh
need_rust host/benchmark/Cargo.toml
fresh_archive
if [ "${1-}" = --commands ]; then
    cargo build --quiet --release "${cargo_options[@]}" --manifest-path host/Cargo.toml -p station-cli
    set -- --commands "$PWD/host/target/release/station"
fi
exec cargo run --quiet --profile benchmark "${cargo_options[@]}" --manifest-path host/Cargo.toml -p station-benchmark -- "$@"
