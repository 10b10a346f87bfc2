#!/bin/bash
# Shows that a script tells the reference from each wrong edit of it.
#
#   mutants.sh SEED COUNT [EDIT..]        a random script of COUNT steps
#   mutants.sh --script FILE [EDIT..]     the script in FILE
#
# An edit (mutants/*.edit, all of them where none is named) holds a comment that says what is wrong, then for each
# place `file:`, `old:` and `new:`; a \n in these stands for the end of a line. The old text must occur exactly once.
set -euo pipefail

if [ $# -lt 2 ]; then
    echo "usage: mutants.sh SEED COUNT [EDIT..]" >&2
    echo "       mutants.sh --script FILE [EDIT..]" >&2
    exit 2
fi
first=$1 second=$2
shift 2

home=$(cd "$(dirname "$0")" && pwd)
work=$(mktemp -d)
trap 'rm -rf "$work"' EXIT

# Fast builds; what the program answers does not depend on these.
export CARGO_TARGET_DIR=$work/target CARGO_INCREMENTAL=1 CARGO_PROFILE_RELEASE_OPT_LEVEL=0

copy() {
    rm -rf "$work/package"
    mkdir "$work/package"
    cp -r "$home/Cargo.toml" "$home/src" "$work/package"
}

build() {
    rm -f "$work/target/release/reference"
    (cd "$work/package" && cargo build --release --bin reference --offline --quiet 2>"$work/messages")
}

# Puts `new` in the place of `old` in a file of the copied package.
replace() {
    local file=$work/package/$1 old=$2 new=$3 text behind
    text=$(<"$file")
    behind=${text#*"$old"}
    [[ $text == *"$old"* && $behind != *"$old"* ]] || return 1
    printf '%s\n' "${text%%"$old"*}$new$behind" >"$file"
}

apply() {
    local line file='' old='' new=''
    while IFS= read -r line; do
        case $line in
            'file: '*) file=${line#file: } ;;
            'old: '*) old=${line#old: } old=${old//\\n/$'\n'} ;;
            'new: '*)
                new=${line#new: } new=${new//\\n/$'\n'}
                replace "$file" "$old" "$new" || return 1
                ;;
        esac
    done <"$1"
}

# A mutant that runs away or crashes is told apart by its end.
answers() {
    local status=0
    timeout 60 "$1" "$work/script" >"$2" 2>/dev/null || status=$?
    echo "ended with $status" >>"$2"
}

copy
build
cp "$work/target/release/reference" "$work/good"
if [ "$first" = --script ]; then
    cp "$second" "$work/script"
else
    "$work/good" --generate "$first" "$second" >"$work/script"
fi
answers "$work/good" "$work/expected"

[ $# -gt 0 ] || set -- "$home"/mutants/*.edit
caught=0 missed=0 broken=0
for edit in "$@"; do
    name=$(basename "$edit" .edit)
    copy
    if ! apply "$edit"; then
        echo "does not apply  $name"
        broken=$((broken + 1))
    elif ! build; then
        echo "does not build  $name"
        broken=$((broken + 1))
    else
        answers "$work/target/release/reference" "$work/actual"
        if cmp -s "$work/expected" "$work/actual"; then
            echo "NOT CAUGHT      $name"
            missed=$((missed + 1))
        else
            echo "caught          $name"
            caught=$((caught + 1))
        fi
    fi
done
echo "$caught caught, $missed not caught, $broken broken"
[ $((missed + broken)) -eq 0 ]
