#!/bin/bash
# How many instructions the calls on a sheet take, as the rows of the table in docs/PERFORMANCE.md. It needs valgrind, and
# crates/bench built by `rt run`. Each number is the difference of two runs that differ in one call.
set -u
cd "$(dirname "$0")/../crates/bench" || exit 1

# The instructions of a run: a shape, a size, and how many calls of each name. All numbers have six digits, since reading them
# takes instructions too.
count() {
    printf '%s %s open %06d tell %06d look %06d alike %06d\n' "$@" |
        valgrind --tool=callgrind --callgrind-out-file=/dev/null out/bench 2>&1 | sed -n 's/.*Collected : //p'
}

# How many pairs a table has that are told.
pairs() {
    echo "$1 $2" | out/bench | sed 's/.*accepted \([0-9]*\), refused \([0-9]*\),.*/\1 \2/' | { read -r a b && echo $((a + b)); }
}

echo "start: $(count shadowing 0 1 0 0 0)"
for shape in shared_holes deep_binders one_hole shadowing; do
    for size in 64 128 256 512; do
        told=$(pairs "$shape" "$size")
        none=$(count "$shape" "$size" 1 0 0 0)
        opened=$(count "$shape" "$size" 2 0 0 0)
        first=$(count "$shape" "$size" 1 1 0 0)
        before=$(count "$shape" "$size" 1 $((told - 1)) 0 0)
        all=$(count "$shape" "$size" 1 "$told" 0 0)
        looked=$(count "$shape" "$size" 1 "$told" 1 0)
        asked=$(count "$shape" "$size" 1 0 0 1)
        echo "| \`$shape\` | $size | $((opened - none)) | $told | $((first - none)) | $((all - before)) | $(((all - none) / told)) | $((looked - all)) | $((asked - none)) |"
    done
done
