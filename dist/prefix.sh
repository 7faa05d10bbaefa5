# Reads the words of dist/install and dist/uninstall.
# shellcheck shell=sh

# Sets `prefix`, and `to`, which is DESTDIR and that: read_prefix NAME WORD.. (`from` is the folder in which the words were said)
read_prefix() {
    called=$1
    shift
    prefix=
    case $#:${1:-} in
        0:) prefix=${HOME:?}/.local ;;
        2:--prefix) prefix=$2 ;;
        1:--prefix=*) prefix=${1#--prefix=} ;;
    esac
    [ -n "$prefix" ] || { sed -n 's/^# \(usage: .*\)/\1/p' "$here/$called" >&2; exit 2; }
    case $prefix in
        /*) ;;
        *) prefix=$from/$prefix ;;
    esac
    case $prefix in
        *'
'* | *"$(printf '\t')"*) echo "$called: a folder whose name holds a line's end or a tab is not for this" >&2; exit 2 ;;
    esac
    prefix=${prefix%/}
    # shellcheck disable=SC2034
    to=${DESTDIR:-}$prefix
}
