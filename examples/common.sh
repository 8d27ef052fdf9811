# shellcheck shell=sh disable=SC2154,SC2034
# Read by each run.sh: `zk` is the program, `here` the example's folder, and the current folder a new one that goes at the end.
zk=${ZK:-$(cd "$here/../.." && pwd)/zk}
case $zk in
    /*) ;;
    */*) zk=$PWD/$zk ;;
esac
folder=$(mktemp -d) && cd "$folder" || exit 70
trap 'rm -rf "$folder"' EXIT

# What ./zk says of a statement beside the program's lines is no part of any text.
export ZK_LINT=0

# For the same output each time. A real seed is fresh and secret: seed=$(openssl rand -hex 32).
seed=seed=0000000000000000000000000000000000000000000000000000000000000000

# Prints a command as a user types it, what it prints, and its status where that is not 0.
try() {
    printf '$ zk'
    for word in "$@"; do
        printf ' %s' "${word##"$here"/}"
    done
    echo
    "$zk" "$@" || echo "(status $?)"
}

# The same where more than one circuit is right: numbers of terms and bytes are not compared.
try_any() {
    try "$@" | sed -e 's/terms [0-9]*/terms N/' -e 's/[0-9]* bytes/N bytes/'
}
