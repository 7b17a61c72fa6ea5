# shellcheck shell=bash
# Records the verdicts of runs as JUnit XML, for scripts that take --junit FILE. Source common.sh first.

JUNIT=   # the file; empty: runs aren't recorded
PART=    # the file that is written at the end, and then renamed to JUNIT
RECORDS= # the folder with the records of the runs so far
COUNT=0
BEGUN=0  # the number of runs that were started
FAILED=0 # the number of runs that failed
CURRENT= # the name of the run that isn't finished yet
JOB=     # its process group

# junit_begin FILE: starts to record runs. A file of an earlier call is removed, so that nobody takes it for this one's.
# FILE appears when it is complete. A link or a device, such as /dev/stdout, is written as it is.
junit_begin() {
    PART=$1
    { [ -e "$1" ] && [ ! -f "$1" ]; } || [ -L "$1" ] || PART=$1.part
    writable "$PART" "$1"
    JUNIT=$1
    [ "$PART" = "$JUNIT" ] || rm -f "$JUNIT" "$PART"
    RECORDS=$(mktemp -d)
    trap 'interrupted 130' INT
    trap 'interrupted 143' TERM
}

# interrupted STATUS: ends the current run and the script. The file then contains the runs so far.
interrupted() {
    trap '' INT TERM
    SAID=interrupted
    [ -z "$JOB" ] || kill -- "-$JOB" 2>/dev/null || true
    exit "$1"
}

# junit_record NAME SECONDS STATUS: records a finished run; its output is in $RECORDS/said.
junit_record() {
    COUNT=$((COUNT + 1))
    { printf '%s\n' "$@" && cat "$RECORDS/said"; } >"$RECORDS/$COUNT"
}

# judged NAME COMMAND..: executes one run. A failure ends the script, unless runs are recorded: then the script
# continues, and junit_end returns 1.
judged() {
    local status begun=${EPOCHREALTIME/[.,]/}
    CURRENT=$1
    BEGUN=$((BEGUN + 1))
    shift
    if [ -z "$JUNIT" ]; then
        "$@"
        CURRENT=
        return
    fi
    set +e # (after ||, the command's own `set -e` would have no effect)
    recorded "$@"
    status=$?
    set -e
    junit_record "$CURRENT" "$(((${EPOCHREALTIME/[.,]/} - begun) / 1000))e-3" "$status"
    CURRENT=
    [ $status = 0 ] || FAILED=$((FAILED + 1))
}

# recorded COMMAND..: executes a command, and also writes its output to $RECORDS/said. The command has its own process
# group, and the shell waits for it with `wait`: so a signal to the script ends it at once.
recorded() {
    set -m
    { (set -e && "$@") 2>&1 | tee "$RECORDS/said"; } &
    JOB=$!
    set +m
    wait "$JOB"
    local status=$?
    JOB=
    return $status
}

# verdict STATUS: prints one line with the verdict of all runs that were started, if a script that exits with STATUS has
# one.
verdict() {
    local failed=$FAILED
    [ "$BEGUN" != 0 ] && [ "$1" -lt 2 ] || return 0
    # (without a record, the first failure ends the script)
    [ -z "$CURRENT" ] || failed=1
    if [ "$failed" != 0 ]; then
        printf '\n%s\n' "$failed of $BEGUN runs failed"
    elif [ "$1" = 0 ]; then
        printf '\n%s\n' "all $BEGUN runs passed"
    fi
}

# junit_end SUITE STATUS: writes the file if --junit was given, and returns the script's status, or 1 if a run failed.
# If the script exits with status 2 or is interrupted, the file contains a test case for that.
junit_end() {
    [ -n "$JUNIT" ] || return "$2"
    if [ "$2" -gt 1 ]; then
        # shellcheck disable=SC2153 # NAME is the script's own
        echo "${SAID:-$NAME exited with status $2 before its runs were complete}" >"$RECORDS/said"
        junit_record "${CURRENT:-what the runs need}" 0 "$2"
    fi
    { python3 "$ROOT/drivers/common/junit.py" "$RECORDS" "$PART" "$1" \
        && { [ "$PART" = "$JUNIT" ] || mv "$PART" "$JUNIT"; }; } || say "can't write $JUNIT"
    rm -rf "$RECORDS"
    [ "$2" = 0 ] || return "$2"
    [ "$FAILED" = 0 ]
}
