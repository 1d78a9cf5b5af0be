# Calls of the command, and what is held of them, for tests/command/subcommands.sh and those beside it, which are run as it is: NAME KELUBASHI FAULTY.
# shellcheck shell=sh
name=$1 command=$2 faulty=$3
here=$PWD
room=$(mktemp -d)
trap 'rm -rf "$room"' EXIT
export LC_ALL=C     # the system's reasons are read below
cases=0

fail() {
    echo "command: $name: $1" >&2
    exit 1
}

# What the second program makes of the element file on standard input: its results, or the rows of its requests from number $1 on.
second() {
    sh "$here/tests/machine/x86.sh" run "$here/build/tests/command/second_results"
}

second_rows() {
    sh "$here/tests/machine/x86.sh" run "$here/build/tests/command/second_rows" "${1:-0}"
}

# A manual page as it is set: a line that ends in a backslash goes on in the next, and \- is a minus.
page() {
    sed -e ':more' -e '/\\$/{N;s/\\\n//;b more' -e '}' -e 's/\\-/-/g' "$here/man/$1"
}

# Runs the command with these words; its status has to be $1. What it wrote is in wrote, what it said in said.
kelubashi() {
    wanted=$1 status=0
    shift
    # shellcheck disable=SC2086 # a list of words
    $command "$@" >"$room/wrote" 2>"$room/said" || status=$?
    asked="kelubashi $*"
    held
}

# The same with a fault.
fault() {
    wanted=$1 status=0
    FAULT=$2
    export FAULT
    shift 2
    # shellcheck disable=SC2086 # a list of words
    $faulty "$@" >"$room/wrote" 2>"$room/said" || status=$?
    asked="kelubashi $*, with the fault '$FAULT'"
    unset FAULT
    held
}

# From here on it is run in the folder $1; and then in this one again.
enter() {
    mine=$command
    command=$(for word in $command; do if [ -f "$word" ]; then printf '%s ' "$(realpath "$word")"; else printf '%s ' "$word"; fi; done)
    cd "$1" || exit
}

leave() {
    cd "$here" || exit
    command=$mine
}

held() {
    [ $status -eq "$wanted" ] || fail "$asked: the status is $status and not $wanted; it says: $(cat "$room/said")"
    cases=$((cases + 1))
}

# What the last call said: these lines, or nothing. What it wrote: nothing, or these bytes, or a text with this in it.
says() {
    printf '%s' "${1:+$1
}" | cmp -s "$room/said" - || fail "$asked: it says '$(cat "$room/said")' and not '$1'"
}

writes_nothing() {
    [ ! -s "$room/wrote" ] || fail "$asked: it writes to standard output: $(head -c 200 "$room/wrote")"
}

writes() {
    cmp -s "$1" "$room/wrote" || fail "$asked: what it writes is not what it has to write"
}

shows() {
    grep -qF -- "$1" "$room/wrote" || fail "$asked: '$1' is not in what it writes: $(cat "$room/wrote")"
}

# The old file is as it was, and no other is beside it.
old_is_whole() {
    cmp -s "$room/kept" "$room/out/file" || fail "$asked: the old file is not as it was"
    [ "$(ls -A "$room/out")" = file ] || fail "$asked: a file is left: $(ls -A "$room/out")"
}

# The new file is in its place, and no other beside it.
new_is_whole() {
    cmp -s "$1" "$room/out/file" || fail "$asked: the new file is not what it has to be"
    [ "$(ls -A "$room/out")" = file ] || fail "$asked: a file is left: $(ls -A "$room/out")"
    cp "$room/kept" "$room/out/file"
}

mkdir "$room/out"
echo 'the old file' >"$room/kept"
cp "$room/kept" "$room/out/file"
mkfifo "$room/fifo"

# ---- Files made of words, each sixteen hexadecimal digits.

# These words as bytes, the lowest first.
bytes() {
    # shellcheck disable=SC2059 # bytes
    printf "$(printf '%s\n' "$@" | awk '{
        for (i = 15; i > 0; i -= 2)
            printf "\\%03o", 16 * (index("0123456789abcdef", substr($0, i, 1)) - 1) + index("0123456789abcdef", substr($0, i + 1, 1)) - 1
    }')"
}

# The row $1 with a word at each place of $2, from 0, in the place of what it has: PLACE=WORD ..
with() {
    # shellcheck disable=SC2086 # a list of words
    printf '%s\n' $1 | awk -v changes="$2" '
        BEGIN { count = split(changes, each, " "); for (i = 1; i <= count; i++) { split(each[i], pair, "="); changed[pair[1] + 0] = pair[2] } }
        { at = NR - 1; print (at in changed) ? changed[at] : $0 }' | tr '\n' ' '
}

# shellcheck disable=SC2034 # used where this is read
zero=0000000000000000 minus_zero=8000000000000000 least=0000000000000001
# shellcheck disable=SC2034
one=3ff0000000000000 minus_one=bff0000000000000 above_one=3ff0000000000001 below_one=3fefffffffffffff
# shellcheck disable=SC2034
infinity=7ff0000000000000 nan=7ff8000000000000

# ---- What is not done.

# It says this line, with these words.
unread() {
    line=$1
    shift
    kelubashi 2 "$@"
    writes_nothing
    says "$line"
}

# It meets the limit of file sizes, of $1 blocks, as it would a full disk.
limited() {
    (ulimit -f "$1" && shift && kelubashi 2 "$@")
    status=$? asked="kelubashi $*, with a limit of file sizes"
    [ $status -eq 0 ] || exit 1
    cases=$((cases + 1))
    [ "$(grep -c 'File too large: look at the limit of file sizes' "$room/said")" -eq 1 ] || fail "$asked: it says '$(cat "$room/said")'"
}

# Its standard output is full, closed, or a pipe that nobody reads; $1 is how its line begins.
unwritten() {
    line=$1 status=0
    shift
    # shellcheck disable=SC2086 # a list of words
    $command "$@" >/dev/full 2>"$room/said" || status=$?
    wanted=2 asked="kelubashi $*, on a full device"
    held
    says "$line: standard output: cannot be written: No space left on device: make room on that disk"
    status=0
    # shellcheck disable=SC2086 # a list of words
    $command "$@" >&- 2>"$room/said" || status=$?
    asked="kelubashi $*, with a closed output"
    held
    says "$line: standard output: cannot be written: Bad file descriptor: it is closed: open it"
    # a pipe whose reader has gone: opened both ways, then to write, then closed but for that
    exec 4<>"$room/fifo"
    exec 3>"$room/fifo"
    exec 4>&-
    status=0
    # shellcheck disable=SC2086 # a list of words
    $command "$@" >&3 2>"$room/said" || status=$?
    exec 3>&-
    asked="kelubashi $*, into a pipe that nobody reads"
    held
    says "$line: standard output: cannot be written: Broken pipe: its reader went away"
}

# What the subcommand $1 makes of the file $2 cannot be written.
unwritable() {
    subcommand=$1 source=$2
    long=$room/$(head -c 250 /dev/zero | tr '\0' x)
    cp "$source" "$room/same"
    ln -f "$room/same" "$room/same2"
    ln -sf nowhere "$room/dangling"
    unread "kelubashi $subcommand: $room/none/file: cannot be written: No such file or directory: correct the name" "$subcommand" -q "$source" -o "$room/none/file"
    unread "kelubashi $subcommand: $room/out: cannot be written: Is a directory: name a file and not a folder" "$subcommand" -q "$source" -o "$room/out"
    unread "kelubashi $subcommand: $room/fifo: is no regular file, and is not replaced by one: leave -o out, and let the shell write there" "$subcommand" -q "$source" -o "$room/fifo"
    [ -p "$room/fifo" ] || fail "$asked: a FIFO is replaced by a file"
    unread "kelubashi $subcommand: $room/same2: is the file that was read, and is not written over: give another name" "$subcommand" "$room/same" -o "$room/same2"
    cmp -s "$source" "$room/same" || fail "$asked: the file that was read is written over"
    unread "kelubashi $subcommand: $room/dangling: cannot be written: No such file or directory: correct the name" "$subcommand" -q "$source" -o "$room/dangling"
    unread "kelubashi $subcommand: $long: cannot be written: File name too long: give a shorter name" "$subcommand" -q "$source" -o "$long"
}

# A machine that fails on the way, while the subcommand $1 makes of the file $2 what is in $3: the old file or the new one, whole.
survives() {
    subcommand=$1 source=$2 made=$3
    fault 0 few "$subcommand" -q "$source" -o "$room/out/file"
    new_is_whole "$made"
    fault 0 few "$subcommand" -q "$source"
    writes "$made"
    fault 0 'no folder fsync' "$subcommand" -q "$source" -o "$room/out/file"
    new_is_whole "$made"
    for each in 'full:No space left on device: make room on that disk' 'fsync:No space left on device: make room on that disk' \
        'close:Disk quota exceeded: make room on that disk' 'rename:Input/output error: look at that disk or device' \
        'fchmod:Operation not permitted: look at the rights of the file and of its folder'; do
        fault 2 "${each%%:*}" "$subcommand" -q "$source" -o "$room/out/file"
        says "kelubashi $subcommand: $room/out/file: cannot be written: ${each#*:}"
        old_is_whole
    done
    fault 2 full "$subcommand" -q "$source"
    says "kelubashi $subcommand: standard output: cannot be written: No space left on device: make room on that disk"
    fault 2 unread "$subcommand" -q "$source" -o "$room/out/file"
    says "kelubashi $subcommand: $source: cannot be read: Input/output error: look at that disk or device"
    old_is_whole
    fault 2 folder "$subcommand" -q "$source" -o "$room/out/file"
    says "kelubashi $subcommand: $room/out/file: is written, and its folder is not on the disk yet: Input/output error: look at that disk"
    new_is_whole "$made"
    fault 137 kill "$subcommand" -q "$source" -o "$room/out/file" 2>"$room/killed"
    cmp -s "$room/kept" "$room/out/file" || fail "$asked: the old file is not as it was"
    [ "$(ls -A "$room/out" | wc -l)" -eq 2 ] || fail "$asked: it should leave one file"
    rm "$room/out"/file.??????
    kelubashi 0 "$subcommand" -q "$source" -o "$room/out/file"
    new_is_whole "$made"
}
