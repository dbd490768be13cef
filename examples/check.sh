#!/bin/sh
# Checks, runs and replays every example, and ends with status 1 where something else comes than should. Examples of several sites
# stand in folders, one source a site, and the site has the name of its file. `outputs` has what a run of each example prints, and
# `journals` a journal of each. Then it sees what the program tells on standard error where it refuses, and with which status it ends.
#
#   OBLIQ=./obliq examples/check.sh
cd "$(dirname "$0")/.." || exit 1
obliq=${OBLIQ:-./obliq}
folder=$(mktemp -d) || exit 1
trap 'rm -rf "$folder"' EXIT
status=0

# prints FILE WORDS..: what a call with these words prints is what the file has, and its status is 0
prints() {
    wanted=$1
    shift
    "$obliq" "$@" > "$folder/out"
    ended=$?
    if [ "$ended" -ne 0 ] || ! cmp -s "$folder/out" "$wanted"; then
        echo "obliq $*: status $ended, where status 0 and the text of $wanted should come:"
        diff "$wanted" "$folder/out"
        status=1
    fi
}

# example NAME SITES..: an example, whose sites are these words
example() {
    name=$1
    shift
    echo "$name"
    for site in "$@"; do echo "${site%%=*} ok"; done > "$folder/accepted"
    prints "$folder/accepted" check "$@"
    prints "examples/outputs/$name.out" run "$@"
    prints "examples/outputs/$name.out" replay --from "examples/journals/$name.journal" "$@"
    # a journal of this run replays, too
    "$obliq" run --journal "$@" | sed '1,/^== journal ==$/d' > "$folder/journal"
    prints "examples/outputs/$name.out" replay --from "$folder/journal" "$@"
}

for source in examples/*.obq; do
    example "$(basename "$source" .obq)" "A=$source"
done
for site_folder in examples/*/; do
    [ "$site_folder" != examples/guide/ ] || continue
    set --
    for source in "$site_folder"*.obq; do
        [ -e "$source" ] || continue
        set -- "$@" "$(basename "$source" .obq)=$source"
    done
    [ $# -eq 0 ] || example "$(basename "$site_folder")" "$@"
done

# the programs of the guide: a run prints what stands beside it, and a replay of its journal, too, with the same status
for source in examples/guide/*.obq; do
    echo "$(basename "$source" .obq)"
    "$obliq" run "A=$source" > "$folder/out"
    ran=$?
    "$obliq" run --journal "A=$source" | sed '1,/^== journal ==$/d' > "$folder/journal"
    "$obliq" replay --from "$folder/journal" "A=$source" > "$folder/again"
    again=$?
    if [ "$again" -ne "$ran" ] || ! cmp -s "$folder/out" "${source%.obq}.out" || ! cmp -s "$folder/again" "$folder/out"; then
        echo "$source: a run or a replay of it prints something else, or ends with another status"
        status=1
    fi
done

# the same programs are cases of crates/obq_cases
{
    echo '# The programs of `examples/guide`.'
    for source in examples/guide/*.obq; do
        printf '\ncall run --journal A=a\nfile a\n'
        sed 's/^/line /' "$source"
    done
} > "$folder/cases"
if ! grep -v -e '^room ' -e '^limited$' -e '^replayed$' crates/obq_cases/data/guide | cmp -s - "$folder/cases"; then
    echo "crates/obq_cases/data/guide: other programs than those of examples/guide"
    status=1
fi

# ends STATUS LINE WORDS..: what a call with these words ends with, and tells
ends() {
    wanted=$1 line=$2
    shift 2
    told=$("$obliq" "$@" 2>&1 >/dev/null)
    ended=$?
    if [ "$ended" -ne "$wanted" ] || [ "$told" != "$line" ]; then
        echo "obliq $*: status $ended and \"$told\", where status $wanted and \"$line\" should come"
        status=1
    fi
}

ends 2 'usage: word 0'
ends 2 'usage: word 2' check A=a E
ends 2 'usage: word 1' replay A=examples/hello.obq
ends 4 'read fault at file 0' check A=examples/none.obq
ends 4 'read fault at file 1' replay --from examples/none.journal A=examples/hello.obq
ends 3 'A: syntax at token 3' check A=/dev/stdin <<END
let a = ;
END
ends 10 '' run A=/dev/stdin <<END
raise(exception("x"))
END
ends 11 '' run A=/dev/stdin <<END
net_import("none", "namer")
END
ends 12 '' run --turns 5 A=/dev/stdin <<END
loop ok end
END
ends 8 'journal line 1' replay --from examples/hello.obq A=examples/hello.obq
ends 8 'journal line 4' replay --from /dev/stdin A=examples/hello.obq <<END
obliq-journal 1
turns 100000
0 0 Put 0
0 1 Put
END
ends 8 'journal entry 1 not legal' replay --from /dev/stdin A=examples/hello.obq <<END
obliq-journal 1
turns 100000
0 0 Put 0
0 0 Put 0
END
ends 8 'journal stops before thread 0' replay --from /dev/stdin A=examples/hello.obq <<END
obliq-journal 1
turns 100000
0 0 Put 0
END
exit $status
