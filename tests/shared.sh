# What the shell scripts of this folder share, which read this file: their counts, and the folder `work` for their files, which is
# removed when they end. They end by `end`.
passed=0 failed=0 page=
# Programs and scripts are in English here, unless a comparison asks for German.
LANG=C.UTF-8
export LANG

# end: says the counts, and ends the script, with status 1 if a comparison has failed.
end() {
    echo "$passed passed, $failed failed"
    [ "$failed" -eq 0 ]
    exit
}

# lack WHAT: ends the script as failed, for it can't do without something.
lack() {
    echo "$0: $1"
    failed=$((failed + 1))
    end
}

# pass, fail WHAT..: counts a comparison, and names one that failed, with its place if `page` and `line` say it.
pass() { passed=$((passed + 1)); }
fail() {
    failed=$((failed + 1))
    echo "failed: ${page:+$page, line $line: }$*"
}

# judge STATUS WHAT..: counts a comparison that gave this status.
judge() {
    right=$1
    shift
    if [ "$right" -eq 0 ]; then pass; else fail "$*"; fi
}

work=$(mktemp -d) || lack 'no folder for the files of the tests'
trap 'rm -rf "$work"' EXIT
trap 'exit 1' HUP INT TERM
