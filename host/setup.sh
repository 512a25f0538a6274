# What the scripts at the top of the repository share: the tools that they need, and an archive that is not older than its sources.
# Sourced there, with the top as the current folder.

# A variable left in the shell must not change what is built or tested. STATION_SEED and the others are for cargo by hand.
unset ${!STATION_@}

missing=()

# need COMMAND PACKAGE...: notes Debian's packages for a command that is missing
need() {
    PATH=$PATH:/usr/sbin command -v "$1" >/dev/null || missing+=("${@:2}")
}

# Installs what was noted, and nothing else: no recommended packages, no newer version of what is there.
install_missing() {
    [ "${#missing[@]}" -ne 0 ] || return 0
    echo "Installing ${missing[*]}." >&2
    if ! { apt-get update && DEBIAN_FRONTEND=noninteractive apt-get install -y --no-install-recommends --no-upgrade "${missing[@]}"; } >&2; then
        echo "Missing, and not installed: ${missing[*]}." >&2
        exit 2
    fi
    missing=()
}

# The kit is no package.
need_kit() {
    if ! command -v rt >/dev/null; then
        echo "The Rattle kit is missing: put its bin folder, with rt, on the PATH." >&2
        exit 2
    fi
}

version_of() {
    "$1" --version 2>/dev/null | awk 'NR == 1 { print $2 }'
}

# is_at_least VERSION COMMAND: the command is there and says that it is of this version or a newer one
is_at_least() {
    local found
    found=$(version_of "$2")
    [ -n "$found" ] && printf '%s\n' "$1" "$found" | sort -V -C
}

# The Rust libraries of host/cli. Debian has them as packages, in a folder that can stand for the public registry: the sums in Cargo.lock are the same. Where
# the folder has not the versions of Cargo.lock, cargo asks the public registry.
libraries=/usr/share/cargo/registry
library_packages=(librust-libc-dev librust-memmap2-dev)
cargo_options=()

locked_libraries() {
    awk -F '"' '/^name/ { name = $2 } /^version/ { version = $2 } /^source/ { print name "-" version }' host/Cargo.lock
}

has_libraries() {
    local library
    for library in $(locked_libraries); do
        [ -d "$libraries/$library" ] || return 1
    done
}

need_libraries() {
    has_libraries || ! command -v apt-get >/dev/null || missing+=("${library_packages[@]}")
}

# After the installation: the options with which cargo finds them.
point_cargo_at_libraries() {
    if has_libraries; then
        cargo_options=(--offline --config 'source.crates-io.replace-with="debian"' --config "source.debian.directory=\"$libraries\"")
    fi
}

# need_rust MANIFEST: cargo and rustc of the rust-version that the manifest asks for, a linker, and the libraries. Debian 12 has newer ones as cargo-web and
# rustc-web, which take the place of its plain cargo.
need_rust() {
    local version tool
    version=$(sed -n 's/^rust-version = "\(.*\)"$/\1/p' "$1")
    need cc gcc libc6-dev
    need_libraries
    if ! is_at_least "$version" cargo || ! is_at_least "$version" rustc; then
        missing+=(cargo-web rustc-web)
    fi
    install_missing
    point_cargo_at_libraries
    hash -r
    for tool in cargo rustc; do
        if ! is_at_least "$version" "$tool"; then
            echo "Missing: $tool $version or newer. The first on the PATH: $(command -v "$tool" || echo none) $(version_of "$tool")" >&2
            exit 2
        fi
    done
}

# The crates that the archive is made of: station, and each that one of them imports.
archived_crates() {
    awk -F ': *' '
        /^[^#]/ { split($1, words, " "); imports[words[1]] = $2 }
        function take(name,   list, count, i) {
            if (name in taken) return
            taken[name] = 1
            print name
            count = split(imports[name], list, " ")
            for (i = 1; i <= count; i++) take(list[i])
        }
        END { take("station") }' crates.txt
}

# One line for each crate that is proved, of what rt tells: how many of how many, and how long it took. Of a crate that was proved before rt tells nothing.
# The last one is the archive's own.
tell_proofs() {
    local line crate= began=0 crates count=0
    crates=$(archived_crates | wc -l)
    while IFS= read -r line; do
        if [[ $line =~ ^rt:\ chose\ --jobs\ [0-9]+\ for\ ([^ ]+)$ ]]; then
            crate=${BASH_REMATCH[1]} began=$SECONDS
        elif [[ $line == "logic=proved "* && -n $crate && $crate != station ]]; then
            count=$((count + 1))
            echo "proved $count of $crates: $crate ($((SECONDS - began)) s)"
            crate=
        elif [[ $line == "made "* ]]; then
            echo "proved $crates of $crates: station, and $line"
        fi
    done
}

# sources_newer_than FILE: of what the archive is made from, and not what rt keeps in a crate's folder out
sources_newer_than() {
    find crates.txt crates -maxdepth 0 -newer "$1"
    find crates -mindepth 2 -maxdepth 2 \( -name src -o -name specs -o -name proofs \) -exec find {} -newer "$1" \;
}

# For every processor of the kind: an archive does not look at which it runs on. rt leaves it as it is where only comments changed.
make_archive() {
    (cd crates/station && rt lib --cpu x86-64) && touch "$1" && echo "made $1"
}

# The archive, made anew if a source is newer. It takes some seconds, also where nothing changed, so not at every start.
fresh_archive() {
    local archive=crates/station/out/libstation.a log=host/target/archive.log
    if [ ! -e "$archive" ] || [ -n "$(sources_newer_than "$archive")" ]; then
        need_kit
        mkdir -p host/target
        if ! (set -o pipefail; make_archive "$archive" 2>&1 | tee "$log" | tell_proofs >&2); then
            echo "The archive is not made. All that rt told is in $log; its last lines:" >&2
            tail -n 10 "$log" >&2
            exit 1
        fi
    fi
}
