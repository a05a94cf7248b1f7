#!/usr/bin/env bash
# Gives each case of a table to the built program, and compares its first answer with the table's. The argument is a
# folder with configurations.tsv and scripts.tsv: a line is the answer, a tab, and the bytes, of which some stand as
# \xHH. A script of forms that are not built yet may be refused where the table says ok. A second argument is a program
# to run in place of the built one. Skipped without a folder.
# `rt ci` does not run this.
set -eu
[ $# -ge 1 ] || { echo "skipped: no folder with cases is given"; exit 0; }
cases=$(cd "$1" && pwd)
cd "$(dirname "$0")/.."
program=${2:-$PWD/crates/ol_files/out/ol_files}
[ -x "$program" ] || { echo "skipped: no built program"; exit 0; }

work=$(mktemp -d)
trap 'rm -rf "$work"' EXIT
wrong=0
unbuilt=0
same=0

# 32 chunk files that are larger than any configuration asks for; they hold no bytes until something is written
many=$(printf '66000,%.0s' $(seq 1 32))
while IFS=$'\t' read -r answer bytes; do
    printf '%b' "$bytes" > "$work/input"
    got=$("$program" --dir "$work" --chunks "${many%,}" init < "$work/input") || true
    if [ "$got" = "$answer" ]; then same=$((same + 1)); else wrong=$((wrong + 1)); echo "configuration: $got in place of $answer: $bytes"; fi
done < "$cases/configurations.tsv"

mkdir "$work/scripts"
printf 'space root 100\nspace data1 8\nphyslog root 8\nlogs root 3 20\nbefore 2\n' | "$program" --dir "$work/scripts" --chunks 100,8,2 init > /dev/null
while IFS=$'\t' read -r answer bytes; do
    printf '%b' "$bytes" > "$work/input"
    got=$("$program" --dir "$work/scripts" play < "$work/input" | tail -n 1) || true
    case "$answer:$got" in
        "$got:$answer") same=$((same + 1)) ;;
        "ok:bad script "*) unbuilt=$((unbuilt + 1)) ;;
        "ok:"*) same=$((same + 1)) ;;
        *) wrong=$((wrong + 1)); echo "script: $got in place of $answer: $bytes" ;;
    esac
done < "$cases/scripts.tsv"
echo "$same as in the tables, $unbuilt scripts of forms that are not built, $wrong wrong"
[ "$wrong" = 0 ]
