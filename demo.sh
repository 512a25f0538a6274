#!/usr/bin/env bash
# Records document 01's example on a disc in a temporary folder, cuts the power inside a later save, mounts, and shows the last finished save; each step as
# an operator would type it. Proves and builds what it needs first. With --keep FOLDER the disc stays there.
set -eu
cd "$(dirname "$0")"
. host/setup.sh
need_rust host/Cargo.toml
fresh_archive
exec cargo run --quiet --release "${cargo_options[@]}" --manifest-path host/Cargo.toml -p station-cli -- demo "$@"
