#!/bin/sh
# Prints the table of the rows given (root, propagate, partials, years, results, interval, check, compare, summary, append, withdraw), whose
# programs are in build/bench/, how two of them grow, and the root by classes of numbers.
#
# Instructions are counted under the emulator on every machine, so that all count alike. Time is measured
# on x86-64 alone: under an emulator it says nothing of a station's machine.
set -eu

here=$(dirname "$0")
build=$here/../build
x86=$here/../tests/machine/x86.sh
plugin=$build/bench/count.so
machine=$(uname -m)

fail() {
    echo "bench: $1" >&2
    exit 1
}

run() {
    sh "$x86" run "$@"
}

emulated() {
    if [ "$machine" = x86_64 ]; then
        qemu-x86_64 "$@"
    else
        run "$@"
    fi
}

# One instruction a block: QEMU 7.2 tells a length one too great of a block that ends where an instruction lies across two
# pages, and the count would change with the place of the code. The variable changed its name in QEMU 8.1.
export QEMU_SINGLESTEP=1 QEMU_ONE_INSN_PER_TB=1

# PROGRAM WORD..: how many instructions it takes, which the plugin tells on standard error.
by_plugin() {
    (
        export QEMU_PLUGIN="$plugin"
        emulated "$@" >/dev/null
    ) 2>&1
}

# The same from the emulator's log of every block.
by_log() {
    (
        export QEMU_LOG=exec,nochain
        emulated "$@" 2>&1 >/dev/null
    ) | grep -c '^Trace'
}

# Whether the way to count gives a number.
counts() {
    case $("$1" "$build/trial") in
    '' | 0 | *[!0-9]*) return 1 ;;
    esac
}

# For this machine and not for x86-64: the emulator loads it into itself.
compile_plugin() {
    cc -std=c99 -Wall -Wextra -pedantic -Werror -O2 -shared -fPIC -o "$plugin" "$here/count.c"
}

# An emulator that is linked statically takes no plugin, as Debian's from release 13 on; its log says the same, more slowly.
choose() {
    command -v qemu-x86_64 >/dev/null ||
        sh "$here/../tests/machine/packages.sh" bench 'there is no emulator to count with' "$build/bench/packages.log" qemu-user
    command -v qemu-x86_64 >/dev/null || fail "installing qemu-user did not help: $build/bench/packages.log has what was tried"
    count=by_plugin passes=20
    if command -v cc >/dev/null && compile_plugin && counts by_plugin; then
        return
    fi
    count=by_log passes=2
    counts by_log || fail 'this emulator counts neither with bench/count.c nor by its log: use QEMU 7.2, as in Debian 12'
}

# ROW COLUMN: instructions of all calls of a pass; what is the same in two runs, the start, falls out.
instructions_of() {
    times=$passes
    case $1 in
    results | check | compare) times=1 ;;     # a pass is a whole file, or several
    esac
    once=$("$count" "$build/bench/$1" "$2" "$times")
    twice=$("$count" "$build/bench/$1" "$2" $((2 * times)))
    echo $(((twice - once) / times))
}

nanoseconds_of() {
    run "$build/bench/$1" "$2"
}

# MEASURE ROW COLUMN [EMPTY]: per call, without what the pass itself takes, by the row's empty calls or those of another column.
per_call() {
    whole=$("$1" "$2" "$3")
    bare=$("$1" "$2" "${4:-empty}")
    calls=1
    if [ "$1" = instructions_of ]; then
        calls=$(run "$build/bench/$2" calls)
    fi
    echo "$whole $bare $calls" | awk '{ printf "%.0f", ($1 - $2) / $3 }'
}

# What stands beside a row's two columns.
beside() {
    case $2 in
    root) echo "four steps a turn: $(per_call "$1" root fours); by the processor: $(per_call "$1" root processor)" ;;
    propagate) echo "by Newton, no promise: $(per_call "$1" propagate newton)" ;;
    years)
        echo "the whole interval searched: $(per_call "$1" years whole); with partials:" \
            "$(per_call "$1" years 'library partials' 'empty partials') library," \
            "$(per_call "$1" years 'plain partials' 'empty partials') plain C"
        ;;
    check)
        echo "in files of 400 rows: $(per_call "$1" check 'library files' 'empty files') library," \
            "$(per_call "$1" check 'plain files' 'empty files') plain C; a propagation of the same orbits:" \
            "$(per_call "$1" check 'library propagate' 'empty propagate') library," \
            "$(per_call "$1" check 'plain propagate' 'empty propagate') plain C"
        ;;
    compare)
        echo "files of 14 rows: $(per_call "$1" compare 'library small' 'empty small') library," \
            "$(per_call "$1" compare 'plain small' 'empty small') plain C"
        ;;
    summary) echo "all entries in one walk: $(per_call "$1" summary one_walk)" ;;
    esac
}

# MEASURE TITLE ROW..
table() {
    measure=$1
    echo
    echo "| $2 | library | plain C | ratio | beside |"
    echo '|---|---:|---:|---:|---|'
    shift 2
    for row in "$@"; do
        library=$(per_call "$measure" "$row" library)
        plain=$(per_call "$measure" "$row" plain)
        ratio=$(echo "$library $plain" | awk '{ printf "%.3f", $1 / $2 }')
        echo "| $row | $library | $plain | $ratio | $(beside "$measure" "$row") |"
    done
}

# MEASURE TITLE ROW: the library's columns of a row for less work and for more.
growth() {
    case $3 in
    propagate) what='orbits by trial points' cases='fewest fewer more most' ;;
    results) what='requests in a file' cases='1 10 100 1000 library' ;;
    *) return 0 ;;
    esac
    echo
    echo "| $what | $2 |"
    echo '|---:|---:|'
    for case in $cases; do
        echo "| $case | $(per_call "$1" "$3" "$case") |" | sed 's/^| library |/| 1500 |/'
    done
}

# MEASURE TITLE ROW: the root's columns by classes of numbers.
classes() {
    [ "$3" = root ] || return 0
    echo
    echo "| roots, $2 | library | plain C | four steps a turn | by the processor |"
    echo '|---|---:|---:|---:|---:|'
    for class in 'smallest subnormals' 'middle subnormals' 'largest subnormals' 'small normals' 'plain normals'; do
        for set in "$class, squares" "$class, others"; do
            figures=
            for column in library plain fours processor; do
                figures="$figures $(per_call "$1" root "$set, $column") |"
            done
            echo "| $set |$figures"
        done
    done
}

choose
for row in "$@"; do
    [ -x "$build/bench/$row" ] || fail "there is no build/bench/$row: make bench builds it"
    run "$build/bench/$row" check
done
table instructions_of 'instructions per call' "$@"
for row in "$@"; do
    growth instructions_of 'instructions per call' "$row"
    classes instructions_of 'instructions per call' "$row"
done
if [ "$machine" = x86_64 ]; then
    table nanoseconds_of 'nanoseconds per call' "$@"
    for row in "$@"; do
        classes nanoseconds_of 'nanoseconds per call' "$row"
    done
fi
