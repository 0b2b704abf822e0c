# The loads and stores of guest memory in each request, from a trace of tests/object/requests.c by valgrind's lackey. Of the
# same requests their answers are read first, one a line. Variables: `image` and `marker`, addresses in hexadecimal;
# `size`, the image's.
#
# Told, with exit status 1: a word that a request loads twice, and a byte that it stores twice. A byte's own
# read-modify-write (one instruction, or a load and a store of it one behind the other) is counted apart from the loads.

function number(hex,    at, value) {
    value = 0
    for (at = 1; at <= length(hex); at++)
        value = 16 * value + index("0123456789abcdef", substr(hex, at, 1)) - 1
    return value
}

function load(at, bytes, by,    word) {
    for (word = int(at / 8); word <= int((at + bytes - 1) / 8); word++)
        loaded[word] += by
}

function store(at, bytes, modified,    byte) {
    for (byte = at; byte < at + bytes; byte++) {
        stored[byte]++
        changed += modified
    }
}

# What a request did, as it ends.
function ends(    kind, word, byte, words, bytes) {
    kind = answer[request]
    words = bytes = 0
    for (word in loaded) {
        if (loaded[word] > 0) words++
        if (loaded[word] > 1) { printf "request %d, %s: word %X loaded %d times\n", request, kind, 8 * word, loaded[word]; bad = 1 }
    }
    for (byte in stored) {
        bytes++
        if (stored[byte] > 1) { printf "request %d, %s: byte %X stored %d times\n", request, kind, byte, stored[byte]; bad = 1 }
    }
    if (words > most_words[kind]) most_words[kind] = words
    if (bytes > most_bytes[kind]) most_bytes[kind] = bytes
    if (changed > most_changed[kind]) most_changed[kind] = changed
    seen[kind]++
    split("", loaded)
    split("", stored)
    changed = 0
    last = ""
}

BEGIN { base = number(image) }
FNR == NR { answer[FNR] = $0; next }
$1 !~ /^[LSM]$/ { next }
{ split($2, access, ","); sub(/^0+/, "", access[1]) }
access[1] == marker { if (inside) ends(); else request++; inside = !inside; next }
!inside { next }
{
    at = number(access[1]) - base
    if (at < 0 || at >= size) next
}
$1 == "L" { load(at, access[2], 1); last = $2 }
$1 == "S" && last == $2 { load(at, access[2], -1); store(at, access[2], 1); last = "" ; next }
$1 == "S" { store(at, access[2], 0); last = "" }
$1 == "M" { store(at, access[2], 1); last = "" }
END {
    for (kind in seen)
        printf "%s: %d requests, at most %d words loaded, %d bytes stored, %d of these by read-modify-write\n", kind, seen[kind], \
            most_words[kind], most_bytes[kind], most_changed[kind]
    if (inside || request != length(answer)) { print request " requests traced, " length(answer) " answered"; bad = 1 }
    exit bad
}
