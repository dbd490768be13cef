#!/usr/bin/env bash
# Times turns of a thread that takes pure steps alone: a loop that adds, a recursion, and a loop over `try`, of some 10,000 and
# 1,000,000 turns each. They run in the program of crates/obq_pure_cases, which is proved and built first where PROGRAM names no
# built one.
#
#   bench/steps.sh
#
# Of each, 100 blocks of 10,000 turns are run and one of 1,000,000. It prints the best user time of RUNS (5 by default) less that of
# as many empty blocks, the turns a second, and how many times as much a turn costs in the long block. About 1 says that no turn costs
# more in a longer run.
set -u

cd "$(dirname "$0")/.." || exit 1
runs=${RUNS:-5}
program=${PROGRAM:-}
folder=$(mktemp -d)
trap 'rm -rf "$folder"' EXIT

. bench/times.sh

if [ -z "$program" ]; then
    (cd crates/obq_pure_cases && rt run > "$folder/log" 2>&1 < /dev/null)
    program=$PWD/crates/obq_pure_cases/out/obq_pure_cases
    [ -x "$program" ] || { tail -n 20 "$folder/log" >&2; exit 1; }
fi

# block_of SHAPE TURNS: a block of about so many turns
block_of() {
    case $1 in
    adding) echo "for i = 1 to $(($2 / 3)) do 1 + i * 2 end" ;;
    recursion) echo "let rec sum = proc(n, s) if n is 0 then s else sum(n - 1, s + n) end end; for i = 1 to $(($2 / 1000)) do sum(165, 0) end" ;;
    try) echo "for i = 1 to $(($2 / 6)) do try raise(exception(\"a\")) except exception(\"a\") => i end end" ;;
    esac
}

run_blocks() {
    (cd "$folder" && "$program")
}

# time_blocks COUNT BLOCK: the time of so many of these blocks, without that of as many empty ones, and the turns of all
time_blocks() {
    yes '' | head -n "$1" > "$folder/deep"
    idle=$(user_time run_blocks) || exit 1
    yes "$2" | head -n "$1" > "$folder/deep"
    taken=$(user_time run_blocks) || exit 1
    own=$((taken - idle))
    [ "$own" -ge 1 ] || own=1
    echo "$own $(awk '$2 == "steps," { turns += $1 } END { print turns }' "$folder/out")"
}

echo "cores: $(nproc)"
printf '1\n' > "$folder/blocks"
for shape in adding recursion try; do
    # shellcheck disable=SC2046 # two numbers each
    set -- $(time_blocks 100 "$(block_of "$shape" 10000)") $(time_blocks 1 "$(block_of "$shape" 1000000)")
    awk -v shape="$shape" -v short="$1" -v short_turns="$2" -v long="$3" -v long_turns="$4" 'BEGIN {
        printf "%-10s 100 times %d turns: %d ms, %.1f million a second; %d turns: %d ms, %.1f million a second; a turn costs %.2f times as much\n", shape, short_turns / 100, short, short_turns / short / 1e3, long_turns, long, long_turns / long / 1e3, (long / long_turns) / (short / short_turns)
    }'
done
