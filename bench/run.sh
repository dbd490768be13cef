#!/usr/bin/env bash
# Times `obliq run` of programs of one site, of some 100,000 and 1,000,000 turns each: a loop that calls a method of one object, a loop
# that reads and writes an item of an array, two threads that pass a token by conditions, and 64 threads that compute.
#
#   PROGRAM=crates/obq/out/obq bench/run.sh
#
# It prints the best user time of RUNS (5 by default), the turns a second, and how many times as much a turn costs in the longer run. About 1
# says that no turn costs more there. Where lua5.4 or python3 are there, the first two loops run in them, too, with as many rounds.
set -u

cd "$(dirname "$0")/.." || exit 1
runs=${RUNS:-5}
program=${PROGRAM:-$PWD/crates/obq/out/obq}
case $program in /*) ;; *) program=$PWD/$program ;; esac
[ -x "$program" ] || { echo "no program $program: build it with ./obliq, or name one by PROGRAM" >&2; exit 1; }
folder=$(mktemp -d)
trap 'rm -rf "$folder"' EXIT

. bench/times.sh

# source_of SHAPE ROUNDS: a program of so many rounds
source_of() {
    case $1 in
    method) echo "let o = {n => 0, add => meth(self, k) self.n := self.n + k end}; for i = 1 to $2 do o.add(i) end; wr_putText(stdout, fmt_int(o.n));" ;;
    array) echo "let a = array_new(10, 0); for i = 1 to $2 do a[i % 10] := a[i % 10] + i end; wr_putText(stdout, fmt_int(a[0]));" ;;
    token) cat <<END
let there = condition(); let back = condition();
let token = {serialized, with => 0,
    first => meth(self) watch back until self.with is 0 end; self.with := 1; signal(there) end,
    second => meth(self) watch there until self.with is 1 end; self.with := 0; signal(back) end};
let other = fork(proc() for i = 1 to $2 do token.second() end end);
for i = 1 to $2 do token.first() end;
join(other); wr_putText(stdout, fmt_int(token.with));
END
        ;;
    threads) echo "let work = proc() for i = 1 to $2 do i * 2 + 1 end end; var made = 0; let rec start = proc(n) if n is 0 then ok else let t = fork(work); start(n - 1); join(t) end end; start(63);" ;;
    esac
}

# turns of the journal of a run
turns_of() {
    "$program" run --turns 1000000 --journal A="$folder/a.obq" | awk '/^== journal ==$/ { on = 1; next } on && NF >= 3 { turns += $2 + ($3 == "-" ? 0 : 1) } END { print turns + 0 }'
}

run_source() {
    "$program" run --turns 1000000 A="$folder/a.obq" > "$folder/out"
}

# time_of SHAPE ROUNDS: the time of the program and its turns
time_of() {
    source_of "$1" "$2" > "$folder/a.obq"
    echo "$(user_time run_source) $(turns_of)"
}

echo "cores: $(nproc)"
while read -r shape short long; do
    # shellcheck disable=SC2046 # two numbers each
    set -- $(time_of "$shape" "$short") $(time_of "$shape" "$long")
    awk -v shape="$shape" -v a="$1" -v at="$2" -v b="$3" -v bt="$4" 'BEGIN {
        if (a < 1) a = 1; if (b < 1) b = 1
        printf "%-8s %d turns: %d ms, %.2f million a second; %d turns: %d ms, %.2f million a second; a turn costs %.2f times as much\n", shape, at, a, at / a / 1e3, bt, b, bt / b / 1e3, (b / bt) / (a / at)
    }'
done <<'END'
method 16000 160000
array 16000 160000
token 4500 45000
threads 500 5000
END

# the same loops elsewhere
run_elsewhere() {
    $elsewhere "$folder/loop" > "$folder/out"
}
for tool in lua5.4 python3; do
    command -v "$tool" > /dev/null || continue
    elsewhere=$tool
    for shape in method array; do
        case $tool-$shape in
        lua5.4-method) echo 'local o = {n = 0}; function o.add(self, k) self.n = self.n + k end; for i = 1, 160000 do o:add(i) end; print(o.n)' ;;
        lua5.4-array) echo 'local a = {}; for i = 0, 9 do a[i] = 0 end; for i = 1, 160000 do a[i % 10] = a[i % 10] + i end; print(a[0])' ;;
        python3-method) printf 'class O:\n    n = 0\n    def add(self, k): self.n += k\no = O()\nfor i in range(1, 160001): o.add(i)\nprint(o.n)\n' ;;
        python3-array) printf 'a = [0] * 10\nfor i in range(1, 160001): a[i %% 10] += i\nprint(a[0])\n' ;;
        esac > "$folder/loop"
        echo "$tool, $shape, as many rounds as the longer run: $(user_time run_elsewhere) ms"
    done
done
