#!/usr/bin/env bash
# Cargo as the scripts at the top of the repository run it: on an archive that is not older than its sources, and with the libraries that Debian has.
# For example: host/cargo.sh install --path host/cli. Run at the top. STATION_SEED is left to it, as one for the tests.
set -eu
cd "$(dirname "$0")/.."
seed=${STATION_SEED-}
. host/setup.sh
[ -z "$seed" ] || export STATION_SEED=$seed
need_rust host/Cargo.toml
fresh_archive
exec cargo "${cargo_options[@]}" "$@"
