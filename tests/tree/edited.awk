# An edit applied as rt does it: below file:, each line old: with the line new: behind it, where the text after old: stands once in that file of the crate,
# as the pairs before have left it. Prints a line for each text that does not, and for each half of a pair; rt says of one that takes out what is not there
# that it is bad.
#
#     awk -v crate=FOLDER -f edited.awk EDIT              whether it fits
#     awk -v crate=FOLDER -v write=1 -f edited.awk EDIT   changes the files too

function times(    rest, at, count) {
    count = 0
    for (rest = text[path]; (at = index(rest, taken)) > 0; rest = substr(rest, at + length(taken))) count++
    return count
}

/^file: / {
    path = crate "/" substr($0, 7)
    if (!(path in text)) {
        while ((getline line <path) > 0) text[path] = text[path] line "\n"
        close(path)
    }
}
/^old: / {
    if (taken != "") print "has no line new: behind it: " taken
    taken = substr($0, 6)
}
/^new:/ {
    if (taken == "") print "is missing, before: " $0
    else if (times() != 1) print "stands " times() " times in " path ": " taken
    else {
        at = index(text[path], taken)
        put = substr($0, 5)
        sub(/^ /, "", put)
        text[path] = substr(text[path], 1, at - 1) put substr(text[path], at + length(taken))
    }
    taken = ""
}
END {
    if (taken != "") print "has no line new: behind it: " taken
    if (write) for (path in text) printf "%s", text[path] >path
}
