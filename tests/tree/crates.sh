#!/bin/sh
# The crates that a crate rests on, or that rest on crates, by crates.txt; the crate itself among them, one a line, lowest first.
#
#     crates.sh below CRATE       what it is proved from
#     crates.sh above CRATE..     what has to be looked at again when one of these changes
set -eu
cd "$(dirname "$0")/../.."
way=$1
shift
awk -v way="$way" -v named="$*" '
    { sub(/#.*/, "") }
    /:/ {
        name = $1
        sub(/:.*/, "", name)
        list[++count] = name
        uses[name] = " " substr($0, index($0, ":") + 1) " "
    }
    END {
        many = split(named, each, " ")
        for (i = 1; i <= many; i++) {
            if (!(each[i] in uses)) {
                print "crates: crates.txt has no crate " each[i] > "/dev/stderr"
                exit 1
            }
            taken[each[i]] = 1
        }
        do {
            more = 0
            for (i = 1; i <= count; i++) {
                many = split(uses[list[i]], each, " ")
                for (j = 1; j <= many; j++) {
                    from = way == "below" ? list[i] : each[j]
                    to = way == "below" ? each[j] : list[i]
                    if (from in taken && to in uses && !(to in taken)) {
                        taken[to] = 1
                        more = 1
                    }
                }
            }
        } while (more)
        for (i = 1; i <= count; i++) if (list[i] in taken) print list[i]
    }' crates.txt
