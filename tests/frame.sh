# What the bash scripts here share. Each begins with `. "$(dirname "$0")/frame.sh"`, and then has
#   $script, $top  its name, and the top of the repository
#   $work          a folder of its own, which is removed at the end
#   needs TOOL PACKAGE     exits with 77 if there is no such tool, and names Debian's package
#   finds_program          sets $DCONFDB: the program that the variable names, else this repository's, which is built first
#   fail WORDS..           reports a failure, and goes on
#   until_held FILE        waits until another program has the lock of a file
#   $WERROR        an error of each warning, of what capi/build compiles
#   verdict WORDS..        prints the last line; exits with 0, or with 1 if something failed
set -u
export WERROR=${WERROR--Werror}
script=${0##*/}
top=$(cd "$(dirname "$0")/.." && pwd)
failed=0
work=$(mktemp -d) || exit 1
trap 'rm -rf "$work"' EXIT

fail() {
    echo "$script: $*"
    failed=1
}
needs() {
    command -v "$1" > /dev/null && return
    echo "$script: skipped, since there is no $1 (Debian's package $2)"
    exit 77
}
finds_program() {
    if [ -z "${DCONFDB-}" ]; then
        "$top/build" || exit 1
        DCONFDB=$top/crates/dconfdb/out/dconfdb
    fi
    DCONFDB=$(realpath "$DCONFDB")
    export DCONFDB
}
until_held() {
    local tries
    for ((tries = 0; tries < 600; tries++)); do
        flock -n "$1" true || return 0
        sleep 0.1
    done
    fail "nobody has the lock of $1"
}
verdict() {
    [ "$failed" = 0 ] || set -- "$@; SOME FAILED"
    echo "$script: $*"
    exit "$failed"
}
