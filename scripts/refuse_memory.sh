#!/usr/bin/env bash
# Refuses the program's memory, one allocation after the other, as it formats a disk and as it plays a script on it, and
# checks how it ends: with its output, or with no memory. `rt ci` does not run this: a stored test cannot refuse an
# allocation. Numbers of allocations may be given.
set -eu
cd "$(dirname "$0")/../crates/ol_files"
folder=$(mktemp -d)
trap 'rm -rf "$folder"' EXIT
script='s1 begin
s1 insert r0 data1 =ann
s1 commit
a1 archive 0 root data1
'
played='1 s1 begun 1
2 s1 rid data1:0:0
3 s1 committed 3
4 a1 archived 1 3 1'

# its own folder for each run, so that no run finds what another left
run() {
    local number=$1 word=$2
    rt try --fail-alloc "$number" -- --dir "$folder/disk" --chunks 100,8,2 "$word" 2> /dev/null
}

check() {
    local number=$1 word=$2 whole=$3 status=0 output
    output=$(run "$number" "$word") || status=$?
    case "$status:$(tail -n 1 <<< "$output")" in
        0:*) [ "$output" = "$whole" ] ;;
        "20:no memory") diff <(grep ' s1 ' <<< "$output" || true) <(head -n "$(grep -c ' s1 ' <<< "$output" || true)" <<< "$whole") > /dev/null ;;
        # a drive that was refused memory fails a mount
        "6:tape fault 1") : ;;
        *) echo "allocation $number of $word: status $status"; echo "$output"; exit 1 ;;
    esac
    echo "allocation $number of $word refused: status $status"
}

for number in ${*:-$(seq 1 40)}; do
    rm -rf "$folder/disk"
    mkdir "$folder/disk"
    check "$number" init ready < stdin
    rm -rf "$folder/disk"
    mkdir "$folder/disk"
    rt try -- --dir "$folder/disk" --chunks 100,8,2 init < stdin > /dev/null 2>&1
    check "$number" play "$played" <<< "${script%$'\n'}"
done
