#!/bin/bash
# Small programs that use a sheet wrongly, each a text of tools/misuse: each must be refused where it is compiled, with the
# error that its first line names, and no other. One begins "// compiles" and must compile, so that a refusal says something.
# With the name of a text it tries that one alone.
set -u
cd "$(dirname "$0")/.." || exit 1

# The errors of a program that `rt try` compiled, by name.
errors_in() {
    grep -oE '^src/main\.rt:[0-9]+:[0-9]+: error\[[a-z0-9-]+\]' <<< "$1" | sed 's/.*\[//; s/\]//' | sort -u | paste -sd ' '
}

# Compiles a text as a crate of its own, in a copy of the crates.
try_text() {
    local text=$1 folder said status wanted wanted_status found
    case $(head -n 1 "$text") in
        '// compiles') wanted='' wanted_status=0 ;;
        '// refused: '*) wanted=$(sed -n '1s/^\/\/ refused: //p' "$text") wanted_status=1 ;;
        *) echo "$text: its first line does not say what is wanted" >&2; return 1 ;;
    esac
    folder=$(mktemp -d) || return 1
    tar -cf - --exclude='crates/*/out' crates crates.txt | tar -xf - -C "$folder" || return 1
    echo 'misuse: sheet recipe leaves' >> "$folder/crates.txt"
    mkdir -p "$folder/crates/misuse/src" && cp "$text" "$folder/crates/misuse/src/main.rt" || return 1
    said=$(cd "$folder/crates/misuse" && rt try 2>&1)
    status=$?
    rm -rf "$folder"
    found=$(errors_in "$said")
    if [ "$found" = "$wanted" ] && [ "$status" = "$wanted_status" ]; then
        echo "$text: ${wanted:-compiles}"
        return 0
    fi
    echo "$text: wanted ${wanted:-no error}, found ${found:-no error}, status $status" >&2
    tail -n 20 <<< "$said" >&2
    return 1
}

if [ "$#" = 1 ]; then
    try_text "$1"
    exit
fi
printf '%s\n' tools/misuse/*.txt | xargs -P 4 -I TEXT tools/misuse.sh TEXT
