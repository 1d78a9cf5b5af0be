# What a library crate shows to others, read off what rt has made of its source: out/rlib/CRATE.rlib/lang/src, where an item is a line, a contract follows in
# indented lines, attributes stand before what they are of, and comments and bodies are gone.
#
#     awk -v crate=CRATE -v crates=' NAME NAME .. ' -v base=FOLDER -f shown.awk FILE..
#
# Prints a line for each public function, however deep: crate, path, "shown", "given" or "kept", "promised" or "-", "asks" where it has a requires or "-".
# A path has its modules, its type and its name, with dots between. The functions of a public trait are kept: each impl of it promises what they do, and no impl
# has clauses to look at here. Given are those of an impl that says by `.._gives` what they answer, as From and Mul of the library ask for it: whoever has the
# type has them. What cannot be followed is a line that begins with "!".

# The path of the module that a file is, and of a name in it.
function module_of(file) {
    sub(/^.*\/lang\/src\//, "", file)
    sub(/\.rt$/, "", file)
    sub(/\/mod$/, "", file)
    if (file == "lib") return ""
    gsub(/\//, ".", file)
    return file
}

function within(module, name) { return module == "" ? name : module "." name }

# The path that a use names, seen from a module.
function seen_from(module, path,    parts, many, i, found) {
    many = split(path, parts, /::/)
    i = 1
    found = module
    if (parts[1] == "crate") { found = ""; i = 2 }
    else if (parts[1] == "self") i = 2
    while (parts[i] == "super") {
        if (found !~ /\./) found = ""
        else sub(/\.[^.]*$/, "", found)
        i++
    }
    for (; i <= many; i++) found = within(found, parts[i])
    return found
}

# A line without the attributes before it, whose words stand apart: # [ .. ] with brackets and texts inside.
function without_attributes(line,    at, depth, letter, quoted) {
    while (line ~ /^# !? ?\[ /) {
        depth = quoted = 0
        for (at = 1; at <= length(line); at++) {
            letter = substr(line, at, 1)
            if (quoted && letter == "\\") at++
            else if (letter == "\"") quoted = !quoted
            else if (!quoted && letter == "[") depth++
            else if (!quoted && letter == "]" && --depth == 0) break
        }
        line = substr(line, at + 1)
        sub(/^ +/, "", line)
    }
    return line
}

# Notes what a pub use brings: a path, one with another name, or a list of these in braces, with the path before it.
function brings(before, text,    at, depth, letter, item, list) {
    text = text ","
    for (at = 1; at <= length(text); at++) {
        letter = substr(text, at, 1)
        if (letter == "{") depth++
        if (letter == "}") depth--
        if (letter != "," || depth > 0) { item = item letter; continue }
        if (item ~ /[{]/) {
            list = item
            sub(/^[^{]*[{]/, "", list)
            sub(/[}][^}]*$/, "", list)
            sub(/[{].*$/, "", item)
            brings(before item, list)
        } else if (item ~ /[^ ]/) brings_one(before item)
        item = ""
    }
}

function brings_one(path,    alias) {
    if (path ~ / as /) { alias = path; sub(/^.* as /, "", alias); sub(/ as .*/, "", path) }
    gsub(/ /, "", path)
    gsub(/ /, "", alias)
    sub(/::self$/, "", path)
    if (path !~ /^[A-Za-z0-9_:]+$/) { trouble("pub use " path " cannot be followed: name each item"); return }
    if (alias == "") { alias = path; sub(/^.*::/, "", alias) }
    count++
    from[count] = module
    to[count] = path
    under[count] = within(module, alias)
}

function trouble(text) { print "! " crate ": " text }

# The type whose functions follow: of a trait's impl the name that rt gives it, else the first word behind the parameters.
function type_of(line,    at, depth, letter) {
    if (line ~ / as [A-Za-z0-9_]+ [{]$/) { sub(/ [{]$/, "", line); sub(/^.* as /, "", line); return line }
    sub(/^impl /, "", line)
    if (line ~ /^</)
        for (at = 1; at <= length(line); at++) {
            letter = substr(line, at, 1)
            if (letter == "<") depth++
            if (letter == ">" && --depth == 0) { line = substr(line, at + 2); break }
        }
    sub(/ .*/, "", line)
    return line
}

function opens(name, of_trait) {
    depth++
    kept_type[depth] = type
    kept_module[depth] = module
    kept_trait[depth] = trait
    type = name
    trait = of_trait
    gives[depth] = 0
}

FNR == 1 { module = module_of(FILENAME); depth = 0; type = ""; trait = 0; open_function = ""; ghost = 0 }

# What the logic alone uses, up to its semicolon.
/^ghost use / { ghost = 1 }
ghost { if (/;$/) ghost = 0; next }

# A contract stands in the lines behind the function's own; what an impl gives, before its functions.
/^ / {
    if (open_function == "" && /^ +ghost [a-z_]+_gives = /) gives[depth] = 1
    if (open_function != "") {
        if ($1 ~ /^ensures\*?$/) promised[open_function] = 1
        if ($1 ~ /^requires\*?$/) asks[open_function] = 1
    }
    next
}

{ open_function = ""; $0 = without_attributes($0) }

/^}/ {
    if (depth == 0) { trouble(FILENAME ": a bracket closes that none opens: " $0); next }
    type = kept_type[depth]
    module = kept_module[depth]
    trait = kept_trait[depth]
    depth--
    next
}

/^(pub )?mod [A-Za-z0-9_]+ [;{]/ {
    name = $1 == "pub" ? $3 : $2
    modules[within(module, name)] = 1
    if ($1 == "pub") inside[module] = inside[module] " " within(module, name)
    if ($NF == "{") { opens("", 0); module = within(module, name) }
    next
}

/^impl .*[{]$/ { opens(type_of($0), 0); next }

/^(pub )?trait [A-Za-z0-9_]+ .*[{]$/ {
    name = $1 == "pub" ? $3 : $2
    others[within(module, name)] = 1
    opens(name, $1 == "pub")
    next
}

/^pub use / {
    sub(/^pub use /, "")
    sub(/ *;$/, "")
    brings("", $0)
    next
}

/^pub (struct|enum) / { types[within(module, $3)] = 1; next }
/^pub (const|type) [A-Za-z0-9_]+ / && !/ fn / { others[within(module, $3)] = 1; next }

/(^| )fn [A-Za-z0-9_]+ / {
    name = $0
    sub(/^(.* )?fn /, "", name)
    sub(/ .*/, "", name)
    where = within(module, type == "" ? name : type "." name)
    open_function = where
    functions[where] = 1
    if (trait) public[where] = 1
    if (gives[depth]) public[where] = given[where] = promised[where] = 1
    if (/^pub (const |unsafe |extern "C" )*fn /) {
        public[where] = 1
        if (type != "") taken[where] = 1     # a method goes with its value
    }
    if (/extern "C"/) trouble(where ": a C call of a library is in no archive: it belongs into kelubashi_c")
    if (/;$/) open_function = ""
    next
}

/^(use|const|struct|enum|type|static) / { next }
NF > 0 { trouble(FILENAME ": this line is not known here: " substr($0, 1, 80)) }

# Takes up what a path names: a function, a module with all that it shows, or what another use names.
function take(path,    i) {
    if (path in visited) return 1
    if (path in functions) { visited[path] = 1; taken[path] = 1; return 1 }
    if (path in types || path in others) return 1
    if (path in modules) { show(path); return 1 }
    for (i = 1; i <= count; i++) if (under[i] == path && follow(i)) return 1
    return 0
}

function follow(i,    first) {
    if (take(seen_from(from[i], to[i]))) return 1
    if (take(seen_from("", to[i]))) return 1
    first = to[i]
    sub(/::.*/, "", first)
    return index(crates, " " first " ") > 0     # what another crate shows is looked at there
}

function show(module,    each, many, i, list) {
    if (module in opened) return
    opened[module] = 1
    for (each in functions) if (each in public && parent(each) == module) taken[each] = 1
    many = split(inside[module], list, " ")
    for (i = 1; i <= many; i++) waiting[++waits] = list[i]
    for (i = 1; i <= count; i++) if (from[i] == module && !follow(i)) trouble("pub use " to[i] " of " (module == "" ? "lib" : module) " is not found")
}

function parent(path) { return path ~ /\./ ? substr(path, 1, length(path) - length(last(path)) - 1) : "" }

function last(path) { sub(/^.*\./, "", path); return path }

END {
    waiting[waits = 1] = "__root__"
    show("")
    for (at = 2; at <= waits; at++) show(waiting[at])
    for (each in public)
        print crate, each, each in taken ? "shown" : each in given ? "given" : "kept", each in promised ? "promised" : "-", each in asks ? "asks" : "-"
}
