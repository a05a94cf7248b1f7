#!/usr/bin/env bash
# What a run of the gate costs, in processor minutes by crate: proofs, tests and must-fail edits.
#
#   scripts/gate_cost.sh run LOG [WORD..]   runs `rt ci` with these words at the top of the checkout, and writes what it
#                                           uses into LOG as it goes; ends with its status
#   scripts/gate_cost.sh LOG                reads such a log, and prints a line for each crate and one for all
#
# A line of the log is: seconds since the start, process, kind, crate, seconds of processor time so far. With
# `--anew` behind LOG all is proved again, also what this machine has kept.
set -euo pipefail
cd "$(dirname "$0")/.."

# whether a check is of an edit: those run in a folder of their own, or over what a proof kept
kind_of() {
    case "$(readlink "/proc/$1/cwd" 2> /dev/null || true)" in
        */rt-edit-*) echo edits; return ;;
    esac
    case "$2" in
        *--incremental*) echo edits ;;
        *' --test '*) echo tests ;;
        *) echo proofs ;;
    esac
}

sample() {
    local session=$1 began=$2 process time words crate
    while read -r process time words; do
        case "$words" in *'/rattle '*--crate-name*) ;; *) continue ;; esac
        crate=${words#*--crate-name }
        echo "$((SECONDS - began)) $process $(kind_of "$process" "$words") ${crate%% *} $time"
    done < <(ps -s "$session" -o pid=,cputimes=,args= 2> /dev/null || true)
}

run() {
    local log=$1 began=$SECONDS session status=0
    shift
    : > "$log"
    setsid rt ci "$@" &
    session=$!
    while kill -0 "$session" 2> /dev/null; do
        sample "$session" "$began" >> "$log"
        sleep 1
    done
    wait "$session" || status=$?
    echo "$((SECONDS - began)) end" >> "$log"
    return "$status"
}

# each process by the most time that it was seen with
table() {
    awk '
        $2 == "end" { clock = $1; next }
        { of[$2] = $3 " " $4; if ($5 > most[$2]) most[$2] = $5 }
        END {
            for (process in of) { split(of[process], it, " "); used[it[2], it[1]] += most[process]; crates[it[2]] = 1; all[it[1]] += most[process] }
            printf "%-18s %7s %7s %7s\n", "crate", "proofs", "tests", "edits"
            sort = "sort"
            for (crate in crates) printf "%-18s %7.1f %7.1f %7.1f\n", crate, used[crate, "proofs"] / 60, used[crate, "tests"] / 60, used[crate, "edits"] / 60 | sort
            close(sort)
            printf "%-18s %7.1f %7.1f %7.1f\n", "all", all["proofs"] / 60, all["tests"] / 60, all["edits"] / 60
            printf "%.0f processor minutes in %.0f minutes by the clock\n", (all["proofs"] + all["tests"] + all["edits"]) / 60, clock / 60
        }' "$1"
}

case "${1-}" in
    run) shift; run "$@" ;;
    '') sed -n '2,9s/^# \{0,1\}//p' "$0"; exit 2 ;;
    *) table "$1" ;;
esac
