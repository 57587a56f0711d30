# For the scripts beside it, which source it: a folder for what they write, and what they build.
# What cargo builds is kept between scripts if CARGO_TARGET_DIR is set. Another static library's folder: WENDITSAL_LIB.
set -euo pipefail

root=$(cd "$(dirname "${BASH_SOURCE[0]}")/.." && pwd)
work=$(mktemp -d)
trap 'rm -rf "$work"' EXIT
export CARGO_TARGET_DIR=${CARGO_TARGET_DIR:-$work/build}
built=$CARGO_TARGET_DIR/release

# build NAME: the program tests/NAME, as $built/NAME
build() {
    cargo build --quiet --release --offline --locked --manifest-path "$root/tests/$1/Cargo.toml"
}

# The comparing program, linked with the static library, which is proved and built first if it is missing or stale.
build_linked() {
    WENDITSAL_LIB=$("$root/tools/static_library")
    export WENDITSAL_LIB
    build compare
}
