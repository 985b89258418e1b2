#!/bin/sh
# Builds the original Rust as a program that answers lines: the oracle.
#   sh oracle/original/build.sh SOURCES [TARGET]
# SOURCES is a checkout of ProjectASAP/asap_sketchlib at commit a05b35ce14, or a folder that has the files under `files` below.
# TARGET (default: the variable ORACLE, else /tmp/oracle) gets crate/ (the sources with the glue, which bindings/ links),
# the programs oracle and hashcheck, and changes.diff, every changed line of the sources.
# Needs rustc and cargo 1.88 or later (edition 2024, let chains) and four Debian packages; no network. README.md says what is
# changed and why. Half a minute.
set -eu
stop() { printf 'build.sh: %s\n' "$*" >&2; exit 1; }
[ $# -eq 1 ] || [ $# -eq 2 ] || { echo "usage: sh build.sh SOURCES [TARGET]" >&2; exit 2; }
here=$(cd "$(dirname "$0")" && pwd)
sources=$(cd "$1" && pwd)
target=${2:-${ORACLE:-/tmp/oracle}}
mkdir -p "$target"
target=$(cd "$target" && pwd)

# 1. What is needed is there.
commit=a05b35ce14
files="analytics/ops.rs common/hash.rs common/heap.rs common/input.rs common/structure_utils.rs common/structures/heap.rs
    common/structures/matrix_storage.rs common/structures/vector1d.rs common/structures/vector2d.rs sketch_framework/univmon.rs
    sketch_framework/univmon_two_tier.rs sketches/countsketch_l2_norm.rs sketches/octo_delta.rs"
wire=sketch_framework/univmon/wire.rs
for path in $files $wire; do
    [ -f "$sources/src/$path" ] || stop "no src/$path in $sources"
done
if [ -e "$sources/.git" ]; then
    at=$(git -C "$sources" rev-parse HEAD)
    case $at in
    "$commit"*) ;;
    *) stop "$sources is at commit $at, not $commit" ;;
    esac
fi
command -v cargo > /dev/null || stop "no cargo"
missing=
for package in librust-smallvec-dev librust-serde-dev librust-xxhash-rust-dev libxxhash-dev; do
    dpkg-query -W -f '${Status}\n' "$package" 2> /dev/null | grep -q 'install ok installed' || missing="$missing $package"
done
[ -z "$missing" ] || stop "missing Debian packages; as root: apt-get install --no-install-recommends$missing"
registry=$(dpkg -L librust-smallvec-dev | sed -n 's,/smallvec-[^/]*/Cargo\.toml$,,p')

# 2. The crate: the sources in their places, then the glue in place of what is left out.
crate=$target/crate
rm -rf "$crate"
mkdir -p "$crate/src" "$crate/.cargo"
for path in $files; do
    mkdir -p "$crate/src/$(dirname "$path")"
    cp "$sources/src/$path" "$crate/src/$path"
    chmod u+w "$crate/src/$path"
done
glue() { # glue FILE PATH
    mkdir -p "$crate/src/$(dirname "$2")"
    cp "$here/glue/$1" "$crate/src/$2"
}
glue lib.rs lib.rs
glue oracle_glue.rs oracle_glue.rs
glue common--mod.rs common/mod.rs
glue common--precompute_sample.rs common/precompute_sample.rs
glue common--structures--mod.rs common/structures/mod.rs
glue common--structures--fixed_structure.rs common/structures/fixed_structure.rs
glue univmon--wire.rs $wire
glue univmon_two_tier--wire.rs sketch_framework/univmon_two_tier/wire.rs
glue countsketch_l2_norm--wire.rs sketches/countsketch_l2_norm/wire.rs
cp "$here/Cargo.toml" "$crate/Cargo.toml"
cp -r "$here/twox_hash" "$here/bin" "$crate/"
# Three functions of the original's univmon/wire.rs, unchanged.
for name in check_layers check_univmon_dimensions update_mode_tag; do
    awk -v name="$name" '
        index($0, "pub(crate) fn " name "(") == 1 { on = 1; found = 1 }
        on { print }
        on && $0 == "}" { on = 0 }
        END { exit !found }
    ' "$sources/src/$wire" >> "$crate/src/$wire" || stop "no function $name in src/$wire"
done

# 3. Changes to the sources. Each is counted, so that another file is noticed.
expect() { # expect PATTERN FILE: just one line matches
    n=$(grep -c -- "$1" "$2" || true)
    [ "$n" = 1 ] || stop "$n lines, not 1, match '$1' in $2"
}
# 3a. THE patch: candidate keys of merge in first-entry order.
for name in univmon.rs univmon_two_tier.rs; do
    file=$crate/src/sketch_framework/$name
    expect 'let candidate_keys: HashSet<OwnedDataInput> =' "$file"
    sed -i 's/let candidate_keys: HashSet<OwnedDataInput> =/let candidate_keys: crate::oracle_glue::FirstEntryOrder<OwnedDataInput> =/' "$file"
done
# 3b. input.rs: Hydra's query and counter types need sketches that are left out.
file=$crate/src/common/input.rs
imports='^    CountMinSketch, CountSketch, Ertl, FastPath, HeapCount, HyperLogLog, Kll, MatrixHash, UnivMon,$'
expect '^use crate::asapv1::admission_rate;$' "$file"
expect '^/// Query type for Hydra sketches\.$' "$file"
expect '^/// A key-count pair used in heap-based sketches' "$file"
expect "$imports" "$file"
sed -i \
    -e '/^use crate::asapv1::admission_rate;$/d' \
    -e "s/$imports/    HeapCount, MatrixHash, UnivMon,/" \
    -e '/^\/\/\/ Query type for Hydra sketches\.$/,/^\/\/\/ A key-count pair used in heap-based sketches/{/^\/\/\/ A key-count pair/!d;}' \
    "$file"
# 3c. structure_utils.rs: its tests, of which the published source has the doc comment alone.
file=$crate/src/common/structure_utils.rs
expect '^/// Structural and distributional tests for the row-level sampler\.$' "$file"
sed -i '/^\/\/\/ Structural and distributional tests for the row-level sampler\.$/,$d' "$file"
# What was changed, for the reader.
: > "$target/changes.diff"
for path in $files; do
    diff -u --label "original/src/$path" --label "oracle/src/$path" "$sources/src/$path" "$crate/src/$path" >> "$target/changes.diff" || true
done

# 4. Build, offline, from Debian's registry alone; then 01's figures.
cat > "$crate/.cargo/config.toml" <<CONFIG
[source.crates-io]
replace-with = "debian"
[source.debian]
directory = "$registry"
CONFIG
cd "$crate"
CARGO_TARGET_DIR=$target/cargo cargo build --offline -q --profile oracle --bin oracle --bin hashcheck
cp "$target/cargo/oracle/oracle" "$target/cargo/oracle/hashcheck" "$target/"
"$target/hashcheck"
"$target/oracle" < "$here/figures.txt" > "$target/figures.out"
diff "$here/figures.want" "$target/figures.out" >&2 || stop "the figures differ"
echo "figures: $(wc -l < "$here/figures.want") answers agree"
echo "built: $target/oracle; changes to the sources: $target/changes.diff"
