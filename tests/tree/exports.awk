# What a file of calls says, as rt fmt lays it out, a line for each thing: "use MODULE.NAME" for each name that the clauses have from elsewhere, "promise
# NAME TEXT" for each public function, from its parameters to its last clause, "body NAME TEXT", and "other TEXT" for what is neither.
#
#     awk -v exported=1 -f exports.awk FILE     of exports to C alone: a function that is none, and any other item, is told as other
#     awk -f exports.awk FILE                   of a library: other items are left out

# The text in one line, with one space between words and none inside a bracket.
function plain(text) {
    gsub(/[ \t]+/, " ", text)
    gsub(/\( /, "(", text)
    gsub(/,? \)/, ")", text)
    sub(/^ /, "", text)
    sub(/ $/, "", text)
    return text
}

function other(text) { if (exported) print "other " FILENAME ": " plain(text) }

function uses(text,    module, many, i) {
    sub(/^ghost use /, "", text)
    sub(/;.*$/, "", text)
    text = plain(text)
    if (text !~ /^[A-Za-z0-9_.]+\.[{][^{}]*[}]$/) { other("a ghost use that cannot be followed: " text); return }
    module = text
    sub(/[{].*$/, "", module)
    gsub(/^[^{]*[{]|[}]$/, "", text)
    many = split(text, list, ",")
    for (i = 1; i <= many; i++) if (plain(list[i]) != "") print "use " module plain(list[i])
}

/^ *\/\/( |$)/ || /^ *$/ { next }

reading == "use" { text = text " " $0; if (/;$/) { uses(text); reading = "" } next }
/^ghost use / { if (/;$/) uses($0); else { text = $0; reading = "use" } next }

reading == "promise" && /^[{]$/ { print "promise " name " " plain(text); text = ""; reading = "body"; next }
reading == "body" && /^[}]$/ { print "body " name " " plain(text); reading = ""; next }
reading != "" { text = text " " $0; next }

/^#!\[tactic\(auto\)\]$/ { next }
/^#\[unsafe\(no_mangle\)\]$/ { marked = 1; next }

(exported && marked && /^pub extern "C" fn [a-z0-9_]+\(/) || (!exported && /^pub fn [a-z0-9_]+\(/) {
    marked = 0
    text = $0
    sub(/^pub (extern "C" )?fn /, "", text)
    name = text
    sub(/\(.*/, "", name)
    text = substr(text, length(name) + 1)
    reading = "promise"
    if (text ~ / [{]$/) { sub(/ [{]$/, "", text); print "promise " name " " plain(text); text = ""; reading = "body" }
    next
}

{ marked = 0; other($0) }

END { if (reading != "") other("the file ends within a " reading) }
