# What the check scripts of this folder share. Sourced by them, from anywhere; leaves the shell in the repository's root.
#
# Each check prints one line, 'ok NAME' or 'FAILED NAME', and the last line is 'N passed, M failed'. What a failed
# check said goes to standard error. What is kept is written under target/, and all else outside the checkout, into $scratch, which goes
# with the script: `rt ci` refuses a link, another repository, and a file of Rattle code or of definitions anywhere but in the crates.
. "$(dirname "${BASH_SOURCE[0]}")/../packaging/library.bash"

export CARGO_TARGET_DIR=$PWD/target/cargo
export CARGO_NET_OFFLINE=true
out=$PWD/target/$(basename "$0")
mkdir -p "$out"
scratch=$(mktemp -d "${TMPDIR:-/tmp}/galitzaf-XXXXXX")
trap 'rm -rf "$scratch"' EXIT
passed=0
failed=0

# check NAME COMMAND...
check() {
    local name=$1
    shift
    if "$@" >"$out/$name.log" 2>&1; then
        passed=$((passed + 1))
        echo "ok $name"
    else
        failed=$((failed + 1))
        echo "FAILED $name"
        tail -n 60 "$out/$name.log" >&2
    fi
}

finish() {
    echo "$passed passed, $failed failed"
    [ "$failed" -eq 0 ]
    exit
}

tree() { git status --porcelain 2>/dev/null; }
before=$(tree)
tree_unchanged() { diff <(echo "$before") <(echo "$(tree)"); }

# each COMMAND...: in each of the script's crates.
each() {
    local crate
    for crate in "${crates[@]}"; do
        env -C "$crate" "$@" || return 1
    done
}

# lint NAME: format and clippy of the script's crates, where they are installed.
lint() {
    if cargo fmt --version >/dev/null 2>&1; then
        check "$1-format" each cargo fmt --check
    fi
    if cargo clippy --version >/dev/null 2>&1; then
        check "$1-clippy" each cargo clippy --locked --release --all-targets -- -D warnings
    fi
}

# The lines between a page's ``` fences.
quoted() { awk '/^```/ { quoted = !quoted; next } quoted' "$1"; }

# The words of the bench image's definition, ADDRESS=WORD: those of a table stand one behind the other.
bench_words() {
    local at words word
    sed -nE 's/^ .*\(0x([0-9A-F]{4}), (0x[0-9A-F]+ .*)\[\]\)$/\1 \2/p' crates/cases/specs/Bench.antt | while read -r at words; do
        for word in ${words//∷/}; do
            word=${word#0x}
            printf '%s=%s\n' "$at" "${word#"${word%%[!0]*}"}"
            at=$(printf %04X "$((0x$at + 8))")
        done
    done | sort
}
