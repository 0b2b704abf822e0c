# Looks up the pointers of a page. Given: the list of files, the list of definitions as 'FILE NAME', and the page with each
# paragraph and each row of a table on one line. Prints what leads nowhere, then how many pointers there are and how many are wrong.

# The names in backticks: `Registers::bad(..)` is bad. What is no name is left out.
function names(text, into,    n, name) {
    while (match(text, /`[^`]*`/)) {
        name = substr(text, RSTART + 1, RLENGTH - 2)
        text = substr(text, RSTART + RLENGTH)
        sub(/^.*::/, "", name)
        sub(/\(.*/, "", name)
        if (name != "" && name !~ /[] .&[]/) into[++n] = name
    }
    return n + 0
}

# The files of a text. One without a folder is in that of the file before it, or in the one given.
function paths(text, folder, into,    n, path) {
    gsub(/[`(),;|:]/, " ", text)
    while (match(text, /[^ ]+\.(antt|rt|rs|h|c|edit|md|txt)( |$)/)) {
        path = substr(text, RSTART, RLENGTH)
        text = substr(text, RSTART + RLENGTH)
        sub(/ $/, "", path)
        if (path ~ /[*]|NAME|FUNCTION|NN|\.\.\./) continue
        if (path !~ /\// && path ~ /\.(antt|rt|edit)$/) path = folder path
        sub(/^(\.\.\/)+/, "", path)
        sub(/^crates\//, "", path)
        if (path !~ /\//) continue
        folder = path
        sub(/[^\/]*$/, "", folder)
        into[++n] = path
    }
    return n + 0
}

function count(right, what) {
    total++
    if (!right) {
        wrong++
        print what
    }
}

# A name is defined in one of n files.
function look(name, files, n,    i, all) {
    for (i = 1; i <= n; i++) {
        if ((files[i] " " name) in defined) break
        all = all " " files[i]
    }
    count(i <= n, "no " name " in" all)
}

# Which columns of a table hold names and files.
function heading(    i, n, cell) {
    theorem = where = 0
    n = split($0, cell, / *\| */)
    for (i = 1; i <= n; i++) {
        if (cell[i] == "theorem" || cell[i] == "law") theorem = i
        if (cell[i] == "where") where = i
    }
}

function theorem_row(text, places,    i, n, k, name, path) {
    k = paths(places, "", path)
    n = names(text, name)
    for (i = 1; i <= n && k; i++) look(name[i], path, k)
}

# `FILE` (`NAME`, `NAME`), anywhere
function names_behind_files(text,    i, n, part, name, path) {
    while (match(text, /`[^` ]+\.(antt|rt|h)` \(`[^()]*`\)/)) {
        part = substr(text, RSTART, RLENGTH)
        text = substr(text, RSTART + RLENGTH)
        path[1] = substr(part, 2, index(part, "` (") - 2)
        n = names(substr(part, index(part, "` (") + 3), name)
        for (i = 1; i <= n; i++) look(name[i], path, 1)
    }
}

function files_there(text,    i, n, path) {
    n = paths(text, "", path)
    for (i = 1; i <= n; i++) count(path[i] in there || ("docs/" path[i]) in there, "no file " path[i])
}

FILENAME == ARGV[1] { there[$0] = 1; next }
FILENAME == ARGV[2] { defined[$0] = 1; next }
!/^\|/ { table = theorem = 0 }
/^\|/ && !table { table = 1; heading(); next }
/^\|---/ { next }
{ split($0, cell, / *\| */) }
theorem && where { theorem_row(cell[theorem], cell[where]) }
{ files_there($0); names_behind_files($0) }
END { print total + 0, wrong + 0 }
