#!/bin/sh
# Times a command over sources of 128 KiB, 512 KiB and 1 MiB of comments, names, texts and numbers.
#
#   COMMAND="./obliq run" ARGUMENT="A=" bench/lex.sh
#
# runs `$COMMAND $ARGUMENT$FILE` for each source, RUNS times (5 by default), and prints the best time, the bytes a second
# and by how much the time grew for each byte. A growth of about 1 says that no byte costs more in a longer source.
set -eu

command=${COMMAND:?"set COMMAND to what reads a source, as COMMAND='./obliq run'"}
argument=${ARGUMENT-A=}
runs=${RUNS:-5}
folder=$(mktemp -d)
trap 'rm -rf "$folder"' EXIT

# make_source BYTES FILE: one long source of whole lines, filled up with spaces
make_source() {
    awk -v size="$1" 'BEGIN {
        length_so_far = 0
        for (line = 0; ; line++) {
            name = "name_" line
            text = "(* a comment (* with another one *) of line " line " *)\n" \
                "let " name " = \"a text of line " line " with \\\"marks\\\" and \\n\";\n" \
                name ".field := " line * 7919 " + ~" line " * other_name[" line "];\n"
            if (length_so_far + length(text) > size) break
            printf "%s", text
            length_so_far += length(text)
        }
        while (length_so_far < size) { printf " "; length_so_far++ }
    }' > "$2"
}

. "$(dirname "$0")/times.sh"

# a source may be refused, since its time counts
read_source() {
    $command "$argument$1" > "$folder/out" 2>&1 || true
}

time_nothing
first=
for kib in 128 512 1024; do
    bytes=$((kib * 1024))
    make_source "$bytes" "$folder/source"
    taken=$(best_time "$folder/source")
    awk -v kib="$kib" -v bytes="$bytes" -v taken="$taken" -v idle="$idle" -v first="${first:-0}" 'BEGIN {
        own = taken - idle
        if (own < 1) own = 1
        printf "%5d KiB: %d ns, %.1f MB/s", kib, taken, bytes * 1000 / own
        if (first > 0) printf ", growth for each byte %.2f", (own / bytes) / first
        printf "\n"
    }'
    if [ -z "$first" ]; then
        first=$(awk -v bytes="$bytes" -v taken="$taken" -v idle="$idle" 'BEGIN { own = taken - idle; if (own < 1) own = 1; printf "%.9f", own / bytes }')
    fi
done
