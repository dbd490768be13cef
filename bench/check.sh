#!/bin/sh
# Times `check` over sources of 256 KiB and 1 MiB of seven shapes: expressions in 200 parentheses, some 10,000 and 40,000
# items, a chain of as many operators, an array of as many items, as many items that each use the name of an earlier one,
# and one name that is used some 130,000 and 520,000 times in one procedure, and in the innermost of 195.
#
#   COMMAND="./obliq check" bench/check.sh
#
# runs `$COMMAND A=FILE` for each source, RUNS times (5 by default), takes off the time of an empty source, and prints
# the best time of each size and how much more a byte costs in the longer one. About 1 says that no byte costs more there.
set -eu

command=${COMMAND:-"./obliq check"}
runs=${RUNS:-5}
folder=$(mktemp -d)
trap 'rm -rf "$folder"' EXIT

# make_source SHAPE BYTES FILE: as many pieces of some 26 bytes as fit (of 402 for parentheses, of 2 in procedures), filled
# up with spaces
make_source() {
    awk -v shape="$1" -v size="$2" 'BEGIN {
        name = sprintf("name_%018d", 0)
        opening = shape == "array" ? "[0" : ""
        if (shape == "chain") opening = "let " name " = 1;\n" name
        if (shape == "names") opening = "let n0000000 = 0;\n "
        closing = shape == "array" ? "]" : ""
        depth = shape == "one-proc" ? 1 : shape == "procs" ? 195 : 0
        if (depth > 0) opening = "let a = 1;\n"
        for (level = 0; level < depth; level++) { opening = opening "proc(x) "; closing = closing " end" }
        nest = "1"
        for (level = 0; level < 200; level++) nest = "(" nest ")"
        printf "%s", opening
        so_far = length(opening) + length(closing)
        for (k = 0; ; k++) {
            if (shape == "nesting") text = nest ";"
            if (shape == "items") text = sprintf("let n%07d = %010d;\n ", k, k)
            if (shape == "chain") text = " +\n " name
            if (shape == "array") text = sprintf(",\n %023d", k)
            if (shape == "names") text = sprintf("let n%07d = n%07d;\n ", k + 1, int(k / 2))
            if (depth > 0) text = "a;"
            if (so_far + length(text) > size) break
            printf "%s", text
            so_far += length(text)
        }
        printf "%s", closing
        for (; so_far < size; so_far++) printf " "
    }' > "$3"
}

. "$(dirname "$0")/times.sh"

# a source has to be accepted
read_source() {
    $command "A=$1" > "$folder/out" || exit 1
}

time_nothing
for shape in nesting items chain array names one-proc procs; do
    make_source "$shape" 262144 "$folder/small"
    make_source "$shape" 1048576 "$folder/large"
    small=$(best_time "$folder/small")
    large=$(best_time "$folder/large")
    awk -v shape="$shape" -v small="$small" -v large="$large" -v idle="$idle" 'BEGIN {
        own_small = small - idle; if (own_small < 1) own_small = 1
        own_large = large - idle; if (own_large < 1) own_large = 1
        printf "%-8s 256 KiB %9.3f ms, 1 MiB %9.3f ms, a byte costs %.2f times as much\n", shape, own_small / 1e6, own_large / 1e6, own_large / own_small / 4
    }'
done
