# The steps of the gate, how they are run and counted: sourced by tests/run, tested by test_gate.py.
# A step is good where its status is 0 and the last line of its log, and no other line, is 'N passed, M failed', with
# N at least 1 and M 0. A line of it that begins with 'calls: ' is shown beside the count. Of a step or a check that is
# not good the end of what it wrote is shown.
passed=0
failed=""
others=()
logs=$(mktemp -d) || exit 1
trap 'rm -rf "$logs"' EXIT

# bad NAME REASON: not good, and why
bad() {
    failed="$failed $1"
    echo "== $1: FAILED: $2"
    tail -n 60 "$logs/$1" | sed 's/^/    /'
}

# opened NAME: an empty log; none where it cannot be made or another step has that name
opened() {
    if ! (set -o noclobber && : >"$logs/$1") 2>/dev/null; then
        failed="$failed $1"
        echo "== $1: FAILED: there is no log for it, or there was a step of that name before"
        return 1
    fi
}

# count NAME STATUS: a step that has ended with that status
count() {
    local log="$logs/$1" line lines calls
    line=$(grep -av '^$' "$log" | tail -n 1)
    lines=$(grep -acE '^[0-9]+ passed, [0-9]+ failed$' "$log")
    calls=$(grep -a '^calls: ' "$log" | tail -n 1)
    if [ "$2" -ne 0 ]; then
        bad "$1" "status $2"
    elif [[ ! $line =~ ^([1-9][0-9]{0,8})\ passed,\ 0\ failed$ ]]; then
        bad "$1" "its last line is not 'N passed, 0 failed' with N at least 1"
    elif [ "$lines" -ne 1 ]; then
        bad "$1" "$lines lines are like its last one"
    else
        passed=$((passed + BASH_REMATCH[1]))
        echo "== $1: $line${calls:+; $calls}"
    fi
}

# step NAME COMMAND..: one step, by itself
step() {
    local name=$1 status=0
    shift
    opened "$name" || return
    "$@" >"$logs/$name" 2>&1 || status=$?
    count "$name" "$status"
}

# beside NAME COMMAND..: one step beside those that follow; collect waits for all of them. The step leaves its status in
# a file: bash forgets that of a process that has ended once another child gets its number.
beside() {
    local name=$1
    shift
    opened "$name" || return
    (
        status=0
        "$@" >"$logs/$name" 2>&1 || status=$?
        echo "$status" >"$logs/$name.status"
    ) &
    others+=("$name $!")
}

collect() {
    local other name pid status
    for other in "${others[@]}"; do
        read -r name pid <<<"$other"
        wait "$pid" 2>/dev/null || :
        status=$(cat "$logs/$name.status" 2>/dev/null) || :
        count "$name" "${status:-127}"
    done
    others=()
}

# holds NAME COMMAND..: one check that is its exit status; where there is no command it does not hold
holds() {
    local name=$1 status=0
    shift
    opened "$name" || return
    [ $# -gt 0 ] && "$@" >"$logs/$name" 2>&1 || status=$?
    if [ "$status" -eq 0 ]; then
        passed=$((passed + 1))
        echo "== $name: holds"
    else
        bad "$name" "status $status of $*"
    fi
}

# none_bad LOG: whether rt ci, which wrote this log, refused every must-fail edit for what it says. It passes where an edit cannot be applied or
# read, and counts it as bad in the one line that begins with 'rt: ok'.
none_bad() {
    grep -a 'BAD EDIT\|^rt: ok' "$1"
    [ "$(grep -ac '^rt: ok' "$1")" -eq 1 ] && ! grep -aE '^rt: ok.*, [0-9]+ bad' "$1" >/dev/null
}

# finish: waits for what still runs; then the summed line, or what failed and status 1
finish() {
    collect
    if [ -n "$failed" ] || [ "$passed" -eq 0 ]; then
        echo "FAILED:${failed:- nothing was run}"
        exit 1
    fi
    echo "$passed passed, 0 failed"
}
