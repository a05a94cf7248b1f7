#!/usr/bin/env bash
# Runs the built program over real files: a folder is formatted, rows are archived, and what is on disk and on tape is
# compared; then the same with files that are missing, of another kind, locked, full, or that can't be written, synced or
# looked at, and without standard streams. The argument is a program to run in place of the built one. Skipped where a
# tool or the program is missing; a case whose means are missing says so. `.ci/run` fails where this does.
set -euo pipefail
cd "$(dirname "$0")/.."
program=${1:-$PWD/crates/ol_files/out/ol_files}
for tool in sha256sum dd cmp mktemp; do
    command -v "$tool" > /dev/null || { echo "skipped: no $tool"; exit 0; }
done
[ -x "$program" ] || { echo "skipped: no built program"; exit 0; }

work=$(mktemp -d)
work=$(cd "$work" && pwd -P)
mounted=
marked=
clean() {
    [ -z "$marked" ] || chattr -i "$marked"
    [ -z "$mounted" ] || umount "$mounted"
    rm -rf "$work"
}
trap clean EXIT
config='space root 100
space data1 8
physlog root 8
logs root 3 20
before 2'
script='s1 begin
s1 insert r0 data1 =ann
s1 commit
a1 archive 0 root data1'
session='1 s1 begun 1
2 s1 rid data1:0:0
3 s1 committed 3'
archived="$session"$'\n4 a1 archived 1 3 1\n'
tape_fault="$session"$'\n4 a1 tapefault 1 1\ntape fault 1\n'
# a command before the program, which gets the program and the command line
under=()

# says what differs, and ends
wrong() {
    echo "$1"
    exit 1
}

# the case's name, the status, the output, the input; then the command line
check() {
    local name=$1 status=$2 output=$3 input=$4 got=0
    shift 4
    printf '%s' "$input" > "$work/input"
    "${under[@]}" "$program" "$@" < "$work/input" > "$work/output" 2> "$work/errors" || got=$?
    printf '%s' "$output" > "$work/expected"
    if [ "$got" != "$status" ] || ! cmp -s "$work/expected" "$work/output" || [ -s "$work/errors" ]; then
        cat "$work/output" "$work/errors"
        wrong "$name: status $got in place of $status, and the output above"
    fi
    echo "$name: as it must be"
}

# a folder with a newly formatted disk
formatted() {
    mkdir "$work/$1"
    check "$1: format" 0 $'ready\n' "$config"$'\n' --dir "$work/$1" --chunks 100,8,2 init
}

# the chunk files of a folder, to compare them later
digests() {
    sha256sum "$work/$1"/chunk*
}

# the case's name, the folder, the digests that its chunk files had
same_disk() {
    [ "$(digests "$2")" = "$3" ] || wrong "$1: a chunk file has changed"
}

block_digest() {
    dd if="$1" bs=2144 skip="$2" count=1 2> /dev/null | sha256sum | cut -d ' ' -f 1
}

formatted plain
for chunk in 0:204800 1:16384 2:4096; do
    [ "$(wc -c < "$work/plain/chunk${chunk%:*}")" = "${chunk#*:}" ] || wrong "chunk file ${chunk%:*} has another size"
done
check "plain: play" 0 "$archived" "$script"$'\n' --dir "$work/plain" play
# the digests of the three blocks, worked out from the format
number=0
for digest in \
    965e010040906947ac5f49007abf87216852a161cd5ba005dc69fcc51afe2af0 \
    cb8043843e247293c558108b1f8416df3893be07039b2e90528a0798a8bec6fd \
    4a748690dd6f819617a9456b10fd7c0cad227c454f4f841d13bdc472e1c9b2dc; do
    got=$(block_digest "$work/plain/tape/1/1" $number)
    [ "$got" = "$digest" ] || wrong "block $number has another digest: $got"
    number=$((number + 1))
done
[ "$(wc -c < "$work/plain/tape/1/1")" = $((3 * 2144)) ] || wrong "the volume has another size"
check "plain: play again" 0 "$archived" "$script"$'\n' --dir "$work/plain" play
cmp "$work/plain/tape/1/1" "$work/plain/tape/1/2"

formatted missing
rm "$work/missing/chunk1"
check "a chunk file is missing" 14 $'too small 1\n' "$script"$'\n' --dir "$work/missing" play
rm "$work/missing/chunk0"
check "the first chunk file is missing" 8 $'not ready none\n' "$script"$'\n' --dir "$work/missing" play
[ ! -e "$work/missing/chunk0" ] || wrong "a play has made a chunk file"

mkdir "$work/empty"
: > "$work/empty/chunk0"
printf 'a' > "$work/empty/chunk1"
check "an empty chunk file is filled, another one stays" 14 $'too small 1\n' "$config"$'\n' --dir "$work/empty" --chunks 100,8,2 init
[ "$(wc -c < "$work/empty/chunk0")" = 204800 ] || wrong "the empty chunk file has another size"
[ "$(cat "$work/empty/chunk1")" = a ] || wrong "a chunk file with bytes has changed"

formatted damaged
printf '\377' | dd of="$work/damaged/chunk0" bs=1 seek=1 conv=notrunc 2> /dev/null
check "the mark of the anchor is damaged" 12 $'bad disk 0 0\n' "$script"$'\n' --dir "$work/damaged" play

formatted file
: > "$work/file/tape"
check "the tape folder is a file" 6 "$tape_fault" "$script"$'\n' --dir "$work/file" play

formatted full
mkdir "$work/full/tape"
ln -s /dev/full "$work/full/tape/1"
check "the drive's folder leads to /dev/full" 6 "$tape_fault" "$script"$'\n' --dir "$work/full" play

formatted cut
(
    # a file may have 3,072 bytes: the second block does not fit
    trap '' XFSZ
    trap - EXIT
    ulimit -f 3
    check "a volume can't grow" 6 "$tape_fault" "$script"$'\n' --dir "$work/cut" play
) | cat # a log that this script writes to may have more

formatted small
check "a drive of two blocks" 7 "$session"$'\n4 a1 outoftape 1\nout of tape 1\n' "$script"$'\n' --dir "$work/small" --blocks 2 --volumes 1 play
formatted two
check "a drive of two volumes" 0 "$archived" "$script"$'\n' --dir "$work/two" --blocks 2 --volumes 3 play
[ "$(wc -c < "$work/two/tape/1/1") $(wc -c < "$work/two/tape/1/2")" = "4288 2144" ] || wrong "the two volumes have other sizes"

formatted out
for verb in init play; do
    status=0
    input=$config
    [ "$verb" = init ] || input=$script
    printf '%s\n' "$input" | "$program" --dir "$work/out" "$verb" > /dev/full || status=$?
    [ "$status" = 4 ] || wrong "standard output to /dev/full: status $status of $verb in place of 4"
    echo "standard output to /dev/full, $verb: as it must be"
done

# without standard streams: no file of a device takes their place
before=$(digests plain)
volumes=$(cat "$work"/plain/tape/1/* | sha256sum)
for verb in init play; do
    status=0
    input=$config
    [ "$verb" = init ] || input=${script%$'\n'*}
    printf '%s\n' "$input" > "$work/input"
    "$program" --dir "$work/plain" "$verb" < "$work/input" >&- || status=$?
    [ "$status" = 4 ] || wrong "standard output is closed: status $status of $verb in place of 4"
    same_disk "standard output is closed, $verb" plain "$before"
    status=0
    "$program" --dir "$work/plain" "$verb" < "$work/input" >&- 2>&- || status=$?
    [ "$status" = 4 ] || wrong "standard output and error are closed: status $status of $verb in place of 4"
    same_disk "standard output and error are closed, $verb" plain "$before"
    echo "standard output is closed, $verb: as it must be"
done
[ "$(cat "$work"/plain/tape/1/* | sha256sum)" = "$volumes" ] || wrong "standard output is closed: a volume has changed"
status=0
"$program" --dir "$work/plain" play <&- > "$work/output" || status=$?
[ "$status" = 0 ] && [ ! -s "$work/output" ] || wrong "standard input is closed, play: status $status in place of 0, or an output"
"$program" --dir "$work/plain" init <&- > "$work/output" || status=$?
[ "$status" = 2 ] && [ "$(cat "$work/output")" = "bad config 1" ] || wrong "standard input is closed, init: status $status in place of 2, or another output"
status=0
"$program" --dir "$work/plain" play <&- >&- 2>&- || status=$?
[ "$status" = 0 ] || wrong "all standard streams are closed, play: status $status in place of 0"
same_disk "standard input is closed" plain "$before"
echo "standard input is closed: as it must be"

# a folder that another command works on; the lock is that of chunk 0's file
if command -v flock > /dev/null; then
    formatted locked
    before=$(digests locked)
    under=(flock --exclusive "$work/locked/chunk0")
    check "the disk is locked elsewhere, play" 5 $'disk fault 0\n' "$script"$'\n' --dir "$work/locked" play
    check "the disk is locked elsewhere, init" 5 $'disk fault 0\n' "$config"$'\n' --dir "$work/locked" init
    same_disk "the disk is locked elsewhere" locked "$before"
    [ ! -e "$work/locked/tape" ] || wrong "the disk is locked elsewhere: a tape folder was made"
    mkdir "$work/making"
    : > "$work/making/chunk0"
    under=(flock --exclusive "$work/making/chunk0")
    check "another command makes the disk" 5 $'disk fault 0\n' "$config"$'\n' --dir "$work/making" --chunks 100,8,2 init
    [ ! -s "$work/making/chunk0" ] && [ ! -e "$work/making/chunk1" ] || wrong "another command makes the disk: a chunk file was made"
    under=()
    check "the lock is free again" 0 "$archived" "$script"$'\n' --dir "$work/locked" play
    # the first command waits for the end of its script; it has the lock once it has the last chunk's file
    mkfifo "$work/wait"
    "$program" --dir "$work/locked" play < "$work/wait" > "$work/first" &
    first=$!
    exec 7> "$work/wait"
    for _ in $(seq 100); do
        case $(readlink "/proc/$first/fd/"* || true) in *chunk2*) break ;; esac
        sleep 0.1
    done
    check "two commands at once, the second" 5 $'disk fault 0\n' "$config"$'\n' --dir "$work/locked" init
    trap '' PIPE
    printf '%s\n' "$script" >&7 || true
    trap - PIPE
    exec 7>&-
    status=0
    wait "$first" || status=$?
    [ "$status" = 0 ] && [ "$(cat "$work/first")"$'\n' = "$archived" ] || wrong "two commands at once, the first: status $status in place of 0, or another output"
    same_disk "two commands at once" locked "$before"
    echo "two commands at once, the first: as it must be"
else
    echo "skipped: two commands on one folder (no flock)"
fi

# chunk files that can be read and not written
formatted read
before=$(digests read)
if mount --bind "$work/read" "$work/read" 2> /dev/null; then
    mounted=$work/read
    if mount -o remount,ro,bind "$work/read" 2> /dev/null; then
        check "a file system to read, play" 0 "$session"$'\n' "${script%$'\n'*}"$'\n' --dir "$work/read" play
        check "a file system to read, init" 5 $'disk fault 0\n' "$config"$'\n' --dir "$work/read" init
        check "a file system to read, tape" 6 "$tape_fault" "$script"$'\n' --dir "$work/read" play
    else
        echo "skipped: a file system to read (it can't be mounted so)"
    fi
    umount "$work/read"
    mounted=
else
    echo "skipped: a file system to read (no mount)"
fi
if chattr +i "$work/read/chunk0" 2> /dev/null; then
    marked=$work/read/chunk0
    check "a chunk file to read, play" 0 "$archived" "$script"$'\n' --dir "$work/read" play
    check "a chunk file to read, init" 5 $'disk fault 0\n' "$config"$'\n' --dir "$work/read" init
    chattr -i "$work/read/chunk0"
    marked=
else
    echo "skipped: a chunk file to read (no chattr)"
fi
same_disk "chunk files to read" read "$before"

# calls of the system that fail: syncs, the look at a volume file, and the opening of /dev/null
if strace -o /dev/null true 2> /dev/null; then
    formatted unsynced
    under=(strace -f -qq -o /dev/null -P "$work/unsynced/chunk1" -e "inject=fdatasync,fsync:error=EIO")
    check "a chunk can't be synced" 5 $'disk fault 1\n' "$config"$'\n' --dir "$work/unsynced" init
    under=(strace -f -qq -o /dev/null -P "$work/unsynced/chunk0" -e "inject=fdatasync,fsync:error=EIO")
    check "the first chunk can't be synced" 5 $'disk fault 0\n' "$config"$'\n' --dir "$work/unsynced" init
    mkdir "$work/unmade"
    under=(strace -f -qq -o /dev/null -P "$work/unmade/chunk0" -e "inject=fdatasync,fsync:error=EIO")
    check "a chunk file can't be made durable" 14 $'too small 0\n' "$config"$'\n' --dir "$work/unmade" --chunks 100,8,2 init
    [ ! -s "$work/unmade/chunk0" ] || wrong "a chunk file can't be made durable: it has bytes"
    under=()
    formatted lazy
    for path in "$work/lazy/tape/1/1" "$work/lazy/tape/1" "$work/lazy/tape" "$work/lazy"; do
        rm -rf "$work/lazy/tape"
        under=(strace -f -qq -o /dev/null -P "$path" -e "inject=fdatasync,fsync:error=EIO")
        check "a volume or a name of it can't be synced: ${path#"$work"/}" 6 "$tape_fault" "$script"$'\n' --dir "$work/lazy" play
    done
    under=()
    formatted hidden
    check "hidden: play" 0 "$archived" "$script"$'\n' --dir "$work/hidden" play
    under=(strace -f -qq -o /dev/null -P "$work/hidden/tape/1/2" -e "inject=statx:error=EACCES")
    check "a volume can't be looked at" 6 "$tape_fault" "$script"$'\n' --dir "$work/hidden" play
    [ ! -e "$work/hidden/tape/1/2" ] || wrong "a volume can't be looked at: another was made"
    before=$(digests plain)
    # shellcheck disable=SC2016
    under=(strace -f -qq -o /dev/null -P /dev/null -e "inject=openat,open:error=ENOENT" sh -c '"$@" >&-' sh)
    check "standard output is closed, and can't be held" 8 "" "$script"$'\n' --dir "$work/plain" play
    same_disk "standard output is closed, and can't be held" plain "$before"
    under=()
else
    echo "skipped: calls of the system that fail (no strace)"
fi

check "no options" 1 $'bad words\n' "" play
check "no command" 1 $'bad words\n' "" --dir "$work/plain" frob
check "an empty folder's name" 1 $'bad words\n' "" --dir "" play
check "a wrong configuration" 2 $'bad config 2\n' $'space root 100\nspace root 8\n' --dir "$work/plain" init
