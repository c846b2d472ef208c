# SPDX-License-Identifier: MIT OR Apache-2.0
# Sums what parts of ./test, ./prove and .ci/run count: the last line of each says how many passed and how many failed.
passed=0
failed=0
skipped=0

# Adds what the last line of the file $1 counts. A run without such a line, or one that ended
# with a status ($2) other than 0 and counts no failure, is itself one failure.
add_counts() {
    local last
    last=$(tail -n 1 -- "$1")
    if [[ ! $last =~ ^([0-9]+)\ passed,\ ([0-9]+)\ failed($|\ \() ]]; then
        failed=$((failed + 1))
        return
    fi
    local good=$((10#${BASH_REMATCH[1]})) bad=$((10#${BASH_REMATCH[2]}))
    if [ "$bad" -eq 0 ] && [ "$2" -ne 0 ]; then
        bad=1
    fi
    passed=$((passed + good))
    failed=$((failed + bad))
}

# Runs a part, by its name and its command, shows what it says, adds its counts and says how long it took.
run_part() {
    local name=$1 log status started=$SECONDS
    shift
    log=$(mktemp)
    "$@" | tee -- "$log"
    status=${PIPESTATUS[0]}
    add_counts "$log" "$status"
    rm -f -- "$log"
    echo "($name: $((SECONDS - started)) s)"
}

# Counts a part that can't be run here, and says why.
skip_part() {
    skipped=$((skipped + 1))
    echo "(skipped: $1: $2)"
}

# The last lines: what was skipped, and the sum.
tell_counts() {
    [ "$skipped" -eq 0 ] || echo "$skipped skipped, for the reasons above"
    echo "$passed passed, $failed failed"
    [ "$failed" -eq 0 ] && [ "$passed" -gt 0 ]
}
