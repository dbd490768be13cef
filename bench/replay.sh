#!/usr/bin/env bash
# Times `replay` of journals of some 10,000, 30,000 and 100,000 entries, and looks how deep a program may be that replays in the
# default stack.
#
#   COMMAND=./obliq bench/replay.sh
#
# Each loop, and a block of as many prints, is run with `--journal`, its journal is replayed RUNS times (5 by default), and the best user time is printed, less that
# of the empty program, with what an entry costs and how many times that of the shortest journal's. About 1 says that no entry costs
# more in a longer journal. Then, for each shape of deep program, comes the greatest size that replays, found by halving.
set -u

command=${COMMAND:-"./obliq"}
runs=${RUNS:-5}
folder=$(mktemp -d)
trap 'rm -rf "$folder"' EXIT

. "$(dirname "$0")/times.sh"

# The source of site A of a loop with so many turns, or of a block of so many items; E, which stands beside it in each program, has an object and exports it.
loop_of() {
    case $1 in
    block) yes 'wr_putText(stdout, "x");' | head -n "$2" ;;
    prints) echo "for i = 1 to $2 do wr_putText(stdout, fmt_int(i)) end" ;;
    calls) echo "let o = {n => 0, inc => meth(s) s.n := s.n + 1 end};
        for i = 1 to $2 do o.inc(); wr_putText(stdout, fmt_int(o.n)) end" ;;
    mutex) echo "let o = {serialized, n => 0, inc => meth(s) s.n := s.n + 1 end};
        for i = 1 to $2 do o.inc(); wr_putText(stdout, \"x\") end" ;;
    sites) echo "let o = net_import(\"o\", \"namer\");
        for i = 1 to $2 do o.inc(); wr_putText(stdout, fmt_int(o.n)) end" ;;
    threads) echo "let o = {serialized, n => 0, inc => meth(s) s.n := s.n + 1 end};
        for k = 1 to 8 do fork(proc() for i = 1 to $2 / 8 do o.inc(); wr_putText(stdout, \"x\") end end) end" ;;
    esac
}

# how many entries a turn of the loop takes
entries_of() {
    case $1 in
    block | prints) echo 1 ;;
    threads) echo 6 ;;
    *) echo 5 ;;
    esac
}

printf 'net_export("o", "namer", {n => 0, inc => meth(s) s.n := s.n + 1 end});\n' > "$folder/E"

# make_journal: the journal of the sources A and E
make_journal() {
    $command run --turns 1000000 --journal "A=$folder/A" "E=$folder/E" > "$folder/ran" || return
    sed '1,/^== journal ==$/d' "$folder/ran" > "$folder/journal"
}

replay() {
    $command replay --from "$folder/journal" "A=$folder/A" "E=$folder/E"
}

: > "$folder/A"
make_journal || exit 1
idle=$(user_time replay)
echo "cores: $(nproc)"
echo "the empty program: $idle ms"

for loop in block prints calls mutex sites threads; do
    first=
    for size in 10000 30000 100000; do
        # so many items are no source
        [ "$loop:$size" != block:100000 ] || continue
        loop_of "$loop" $((size / $(entries_of "$loop"))) > "$folder/A"
        make_journal || exit 1
        taken=$(user_time replay) || exit 1
        cmp -s "$folder/out" <(sed '/^== journal ==$/,$d' "$folder/ran") || echo "$loop: another output"
        entries=$(($(wc -l < "$folder/journal") - 2))
        cost=$(awk -v taken="$taken" -v idle="$idle" -v entries="$entries" 'BEGIN { own = taken - idle; if (own < 1) own = 1; printf "%.6f", own * 1e3 / entries }')
        first=${first:-$cost}
        awk -v loop="$loop" -v entries="$entries" -v taken="$taken" -v cost="$cost" -v first="$first" 'BEGIN {
            printf "%-8s %7d entries %7d ms %8.2f us an entry, %.2f times as much%s\n", loop, entries, taken, cost, cost / first, (cost >= 2 * first ? ": it doubles" : "")
        }'
    done
done

# deep_of SHAPE SIZE: a source of this size
deep_of() {
    awk -v shape="$1" -v size="$2" 'BEGIN {
        if (shape == "items") for (k = 0; k < size; k++) printf "1;\n"
        if (shape == "chain") { printf "let a = 1"; for (k = 0; k < size; k++) printf " + 1" }
        # so many closures, of which each has the one before inside of 190 forms
        closures = shape == "closures" ? size : 998
        forms = shape == "closures" ? 190 : size
        if (shape == "closures" || shape == "calls") {
            for (k = 0; k < forms; k++) { opening = opening "1 + ("; closing = closing ")" }
            printf "var f = proc() 0 end; for i = 1 to %d do let g = f; f := proc() %sg()%s end end;", closures, opening, closing
        }
        # the last one calls the one before, and so on: so many forms are around each activation
        if (shape == "calls") printf " f()"
    }' > "$folder/A"
}

# replays SHAPE SIZE: whether it does; a program that is ended by a signal has a status above 128
replays() {
    deep_of "$1" "$2"
    case $1 in
    # one step, behind which the thread could go on: the term was opened, copied and let go then
    items | chain) printf 'obliq-journal 1\nturns 1000000\n0 1 -\n' > "$folder/journal" ;;
    *) make_journal 2> "$folder/err" || return 1 ;;
    esac
    replay > "$folder/out" 2> "$folder/err"
    [ $? -lt 128 ]
}

echo "stack: $(ulimit -s) KiB"
for deep in ${DEEP-items:40000 chain:100000 closures:999 calls:4}; do
    shape=${deep%:*} size=${deep#*:}
    if replays "$shape" "$size"; then
        echo "$shape: $size replay"
        continue
    fi
    low=0 high=$size
    while [ $((high - low)) -gt $((1 + low / 100)) ]; do
        middle=$(((low + high) / 2))
        if replays "$shape" "$middle"; then low=$middle; else high=$middle; fi
    done
    echo "$shape: $low replay, $high don't"
done 2> /dev/null
