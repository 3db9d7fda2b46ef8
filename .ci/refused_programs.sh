#!/usr/bin/env bash
# Checks that each program in refused/ doesn't compile, for the reason that it names.
#
# A program is a text file with lines that end with '// refused: CODE'. With these lines the compiler must report CODE.
# Without them the same program must build, so that nothing else in it is refused. Each program is built by `rt try`,
# which proves nothing, in a throw-away copy of the crates that it depends on.
set -u
cd "$(dirname "$0")/.." || exit 1
root=$PWD
readonly crates="system_version ent_types chunk_layout enable_bits buffer_store block_columns world_model chunk_block \
block_laws world_laws shared_values archetype_store entity_table world_places world_rows world_loans expr_trees expr_eval \
structural_ops"
copy=$(mktemp -d) || exit 1
trap 'rm -rf "$copy"' EXIT

# Copies the sources of the crates, without what earlier runs left.
prepare() {
    local name part
    mkdir -p "$copy/crates" && git -C "$copy" init -q || return 1
    [[ ! -f $root/HANDLES ]] || cp "$root/HANDLES" "$copy/" || return 1
    for name in $crates; do
        mkdir "$copy/crates/$name" || return 1
        for part in src specs proofs; do
            [[ ! -d $root/crates/$name/$part ]] || cp -r "$root/crates/$name/$part" "$copy/crates/$name/" || return 1
        done
        grep "^$name[: ]" "$root/crates.txt" >> "$copy/crates.txt" || return 1
    done
}

# Builds a program from standard input under a name. The output is in the file OUT.
build() {
    local name=$1
    mkdir -p "$copy/crates/$name/src" "$copy/crates/$name/specs" "$copy/crates/$name/proofs" || return 1
    : > "$copy/crates/$name/specs/Lib.antt"
    : > "$copy/crates/$name/proofs/Lib.antt"
    cat > "$copy/crates/$name/src/main.rt"
    grep -q "^$name:" "$copy/crates.txt" || echo "$name: $crates thiserror" >> "$copy/crates.txt"
    (cd "$copy/crates/$name" && rt try) > "$copy/$name.out" 2>&1
}

give_up() {
    echo "refused programs: $*" >&2
    exit 1
}

prepare || give_up "the copy of the crates failed"
count=0
for file in .ci/refused/*.txt; do
    name=$(basename "$file" .txt)
    code=$(sed -n 's/.*\/\/ refused: //p' "$file" | sort -u)
    [[ -n $code && $code != *$'\n'* ]] || give_up "$file names no error, or more than one"
    if ! grep -v '// refused: ' "$file" | build "${name}_twin"; then
        cat "$copy/${name}_twin.out" >&2
        give_up "$file doesn't build without the lines that must be refused"
    fi
    if build "$name" < "$file"; then
        give_up "$file builds"
    fi
    if ! grep -qF "[$code]" "$copy/$name.out"; then
        cat "$copy/$name.out" >&2
        give_up "$file is refused, but not by $code"
    fi
    count=$((count + 1))
done
echo "refused programs: $count refused, as they must be"
