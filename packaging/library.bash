# What packaging/install and the scripts of tests/ share. Sourced by them, from anywhere; leaves the shell in the
# repository's root.

# A relative one is meant from where the caller stands.
if [ -n "${GALITZAF_LIB_DIR:-}" ]; then
    GALITZAF_LIB_DIR=$(realpath "$GALITZAF_LIB_DIR") || exit 2
fi
cd "$(dirname "${BASH_SOURCE[0]}")/.." || exit 2

# The archive that packaging/archive makes.
archive=${GALITZAF_LIB_DIR:-$PWD/target/staticlib}/libgalitzaf.a
# Whether it has to be made: there is none, or a source is newer. What rt writes into a crate's out/ is no source.
stale() {
    [ -z "${GALITZAF_LIB_DIR:-}" ] && { [ ! -f "$archive" ] ||
        [ -n "$(find crates/*/src crates/*/specs crates/*/proofs crates.txt -newer "$archive" -print -quit 2>/dev/null)" ]; }
}
# The archive, proved and compiled where it has to be.
static_library() {
    if stale; then
        packaging/kit || true
        packaging/archive || return 1
    fi
    [ -f "$archive" ] || { echo "no $archive" >&2; return 1; }
}

# The crates named and all under them, those of the kit left out.
with_those_under() { # CRATE...
    awk -v wanted="$*" '
        { sub(/#.*/, "") }
        match($0, /^[a-z0-9_]+/) { name = substr($0, 1, RLENGTH); under[name] = $0; sub(/^[^:]*:/, "", under[name]) }
        END {
            n = split(wanted, todo, " ")
            for (i = 1; i <= n; i++) {
                if (todo[i] in seen || !(todo[i] in under)) continue
                seen[todo[i]] = 1
                print todo[i]
                m = split(under[todo[i]], more, " ")
                for (j = 1; j <= m; j++) todo[++n] = more[j]
            }
        }' crates.txt
}
# Copies these crates and all under them, with what a proof reads and nothing else, into a folder, in which `rt ci` then proves them from
# nothing or takes what an earlier run on this machine proved of the same files. The folder is outside the checkout: there rt's gate takes a
# crate's files in no other place.
copy_crates() { # FOLDER CRATE...
    local crate part to=$1
    shift
    [ ! -f HANDLES ] || cp HANDLES "$to/"
    for crate in $(with_those_under "$@"); do
        grep "^$crate\( [^:]*\)\?:" crates.txt >>"$to/crates.txt"
        mkdir -p "$to/crates/$crate"
        for part in src specs proofs; do
            [ ! -d "crates/$crate/$part" ] || cp -a "crates/$crate/$part" "$to/crates/$crate/"
        done
    done
}
# words_of CRATE FOLDER: sets `words` to what rt gives the kit's compiler for a crate in a folder in which `rt ci` has proved those under
# it.
words_of() {
    local crate=$1 folder=$2 library at kit
    kit=$(dirname "$(rt doc)")
    words=(--crate-name "$crate" src/lib.rt --extern "std=$kit/rlibs/std.rlib" -L "dependency=$kit/rlibs")
    for library in $(sed -n "s/#.*//; s/^$crate\( [^:]*\)\?: *//p" crates.txt); do
        at=$folder/crates/$library/out/rlib
        [ -d "$at" ] || at=$kit/rlibs
        words+=(--extern "$library=$at/$library.rlib")
    done
    for library in "$folder"/crates/*/out/rlib; do words+=(-L "dependency=$library"); done
    words+=(--antt-project "$kit/rattle/logic/antt-project.json" --logic-built "$kit/logic_built" --links "$crate=")
    if grep -q "^$crate staticlib:" crates.txt; then words+=(--crate-type staticlib); fi
}
# The one version number.
version=$(sed -n 's/^#define GALITZAF_VERSION "\(.*\)"$/\1/p' include/galitzaf.h)
