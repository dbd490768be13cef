# For the scripts beside it, which set `runs` and define `read_source FILE`.

# best_time FILE: the shortest of all runs, in nanoseconds
best_time() {
    best=
    run=0
    while [ "$run" -lt "$runs" ]; do
        begin=$(date +%s%N)
        read_source "$1"
        end=$(date +%s%N)
        taken=$((end - begin))
        if [ -z "$best" ] || [ "$taken" -lt "$best" ]; then best=$taken; fi
        run=$((run + 1))
    done
    echo "$best"
}

# the time of an empty source, which is also printed, as `idle`
time_nothing() {
    : > "$folder/empty"
    idle=$(best_time "$folder/empty")
    echo "cores: $(nproc)"
    echo "an empty source: $idle ns"
}

# user_time COMMAND..: the least user time of all runs, in milliseconds; the output goes to $folder/out. Other processes of the
# machine change it less than the time of the clock. It needs bash.
user_time() {
    TIMEFORMAT=%3U
    best=
    run=0
    while [ "$run" -lt "$runs" ]; do
        { time "$@" > "$folder/out" 2> "$folder/err"; } 2> "$folder/taken"
        ended=$?
        taken=$(tail -n 1 "$folder/taken" | awk '{ printf "%d", $1 * 1000 + 0.5 }')
        if [ -z "$best" ] || [ "$taken" -lt "$best" ]; then best=$taken; fi
        run=$((run + 1))
    done
    echo "$best"
    return "$ended"
}
