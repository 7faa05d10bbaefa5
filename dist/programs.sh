# Where the programs and the library of this checkout come from; read by ./xvsh, ./test, dist/install and bindings/build, which set
# `here`, the whole path of the checkout.
#
# dist/names lists the crates that dist/ holds files of, and these. dist/NAME.gz is the program of crates/NAME as the gate built it, and
# dist/record says of which sources. What is run is NAME in
# out/bin, unpacked from there, or proved and built here; where out/bin can't be written, or holds no program that may be run, it is NAME
# in a folder of this checkout's in the user's cache; and else in a folder for one call. Beside it stand:
#
#   NAME.sources   the digest of the sources that it was made of, NAME.program its own, and NAME.origin: dist or build
#   NAME.files     the files and folders that the digest is of, from crates/, a line each
#   NAME.stamp     when NAME and each of these was changed, and its inode, when the digests were last computed
#
# A call compares the stamp, and the digests only where it differs. When a file was changed (its ctime) the system writes by itself, so
# that `touch -d`, `rsync -t` and `tar`, which set when it was written (its mtime), leave their trace.
# shellcheck shell=sh
: "${here:?}"

stamped='%.9Z %i'

# Ends with status 125, and says why.
stop() {
    echo "xvsh: $*" >&2
    exit 125
}

# Ends where a command that is needed isn't there: need COMMAND WHAT
need() {
    command -v "$1" >/dev/null || stop "there is no command $1 here, which $2"
}

# Prints the stamp of the files that standard input lists, from crates/, behind that of a PROGRAM if one is given: stamp_of [PROGRAM]
stamp_of() (
    cd "$here/crates" && exec xargs -d '\n' -s 1000000 stat -c "$stamped" -- "$@" 2>/dev/null
)

# Whether NAME is in this folder, and neither it nor what it was made of was written since: is_current NAME FOLDER
is_current() {
    [ -x "$2/$1" ] && [ -r "$2/$1.stamp" ] && [ -r "$2/$1.files" ] && stamp_of "$2/$1" <"$2/$1.files" | cmp -s - "$2/$1.stamp"
}

# Whether NAME in this folder is of the kind that is asked for: with XVSH_BUILD only what was built here is. is_wanted NAME FOLDER
is_wanted() {
    [ -z "${XVSH_BUILD:-}" ] || [ "$(cat "$2/$1.origin" 2>/dev/null)" = build ]
}

# Prints the folder for programs of this checkout in the user's cache, where there can be one.
cache_folder() {
    kept=${XDG_CACHE_HOME:-${HOME:+$HOME/.cache}}
    [ -n "$kept" ] && echo "$kept/xvsh/at$(cd "$here" && pwd -P)"
}

# Prints the files and folders that the digest of NAME is of, from crates/.
list_sources() (
    cd "$here/crates" || exit 1
    printf '../%s\n' crates.txt HANDLES dist/record
    for part in $(awk -F: -v tops="$1" -f ../dist/parts.awk ../crates.txt); do
        echo "$part"
        for kind in src specs proofs; do
            if [ -d "$part/$kind" ]; then find "$part/$kind" \( -type d -o -name '*.rt' -o -name '*.antt' \); fi
        done
    done
)

# Prints the value of a line of dist/record.
recorded() {
    sed -n "s/^$1 //p" "$here/dist/record" 2>/dev/null
}

digest_of() {
    sha256sum <"$1" | cut -d' ' -f1
}

# Whether dist/ has the program NAME of the sources of this digest.
is_packed() {
    [ -r "$here/dist/$1.gz" ] && [ "$(recorded "$1.sources")" = "$2" ]
}

# Whether NAME in this folder is whole, is wanted and is of the sources of this digest: is_kept NAME FOLDER DIGEST
is_kept() {
    [ -x "$2/$1" ] && is_wanted "$1" "$2" && [ "$(cat "$2/$1.sources" 2>/dev/null)" = "$3" ] || return 1
    wanted=$(cat "$2/$1.program" 2>/dev/null)
    # of the same sources dist/ may hold the program of another kit by now
    [ "$(cat "$2/$1.origin" 2>/dev/null)" = build ] || wanted=$(recorded "$1.program")
    [ "$(digest_of "$2/$1")" = "$wanted" ]
}

# Unpacks a file of dist/ into another, and ends where it isn't the one that the record names: unpack_file NAME FILE WHAT
unpack_file() {
    need gzip "unpacks dist/$1.gz"
    told=$({ gzip -dc "$here/dist/$1.gz" >"$2"; } 2>&1) || { rm -f "$2"; stop "dist/$1.gz can't be unpacked to $2: $(echo "$told" | tail -n 1)"; }
    [ "$(digest_of "$2")" = "$(recorded "$1.program")" ] || { rm -f "$2"; stop "dist/$1.gz is not the $3 that dist/record names"; }
}

# Whether dist/ has the library of the sources of this digest.
has_library() {
    [ -r "$here/dist/libxvsh.a.gz" ] && [ -r "$here/dist/libxvsh.so.gz" ] && [ "$(recorded xvsh_c.sources)" = "$1" ]
}

# Unpacks the program NAME into a file, and ends where it isn't the one that the record names, or doesn't start. The status is 1 where
# the system runs nothing from that folder: unpack_to NAME FILE
unpack_to() {
    unpack_file "$1" "$2" program
    chmod 755 "$2"
    "$2" --version </dev/null >/dev/null 2>&1 || {
        # whether it is the program, or the folder
        printf '#!/bin/sh\n' >"$2"
        if "$2" 2>/dev/null; then runs=yes; else runs=; fi
        rm -f "$2"
        [ -n "$runs" ] || return 1
        stop "the program in dist/ doesn't start here: it needs x86-64 Linux with glibc 2.34 or later, and this has $(getconf GNU_LIBC_VERSION 2>/dev/null || echo another C library)"
    }
}

# Writes the stamp of NAME in this folder, of the sources as they were listed and stamped: write_stamp NAME FOLDER LIST SOURCES
write_stamp() {
    # under other names first, so that a call beside this one finds them whole; the stamp last
    echo "$3" >"$2/$1.files.$$" && { stat -c "$stamped" "$2/$1" && echo "$4"; } >"$2/$1.stamp.$$" 2>/dev/null &&
        mv -f "$2/$1.files.$$" "$2/$1.files" && mv -f "$2/$1.stamp.$$" "$2/$1.stamp"
    rm -f "$2/$1.files.$$" "$2/$1.stamp.$$"
}

# Puts NAME.new.PROCESS of this folder in its place: keep NAME FOLDER DIGEST ORIGIN
keep() {
    rm -f "$2/$1.stamp"
    echo "$3" >"$2/$1.sources"
    echo "$4" >"$2/$1.origin"
    digest_of "$2/$1.new.$$" >"$2/$1.program"
    mv -f "$2/$1.new.$$" "$2/$1"
}

# Whether this folder is there, or could be made, and can be written. In a checkout only its owner makes one, so that root leaves no
# folder there that the owner can't remove; one outside is the user's alone.
is_open() {
    case $1 in
        "$here"/*) [ -d "$1" ] || { [ -O "$here" ] && mkdir -p "$1" 2>/dev/null; } ;;
        *) (umask 077 && mkdir -p "$1") 2>/dev/null ;;
    esac && [ -w "$1" ]
}

# Proves and builds the program NAME of the sources of this digest, and keeps it in this folder: build NAME FOLDER DIGEST
build() {
    need rt "proves and builds $1 (XVSH_BUILD is set); an unchanged checkout has it in dist/, for x86-64 Linux"
    need python3 "runs dist/build"
    is_open "$2" || stop "$2 can't be written, and XVSH_BUILD is set"
    echo "xvsh: XVSH_BUILD is set: proving and building $1" >&2
    "$here/dist/build" "$1" || exit 125
    cp "$here/out/build/$1" "$2/$1.new.$$"
    keep "$1" "$2" "$3" build
    [ -x "$2/$1" ] || stop "no program may be run from $2 (noexec?)"
    program=$2/$1
}

# Says how to have the program NAME of sources that dist/ has none of, and ends: to prove takes long, so it is asked for.
refuse() {
    echo "xvsh: dist/ has no program of these sources" >&2
    echo "xvsh: XVSH_BUILD=1 ./xvsh --version proves and builds it, in half an hour or more" >&2
    echo "xvsh: rt try -- WORD.., in crates/$1, runs it unproved, after some minutes" >&2
    exit 125
}

# Makes a folder for this call alone, which is gone when it ends.
make_room() {
    own_room=$(mktemp -d 2>/dev/null) || stop "there is no room in ${TMPDIR:-/tmp} for the program; TMPDIR names another folder"
    trap 'rm -rf "$own_room"' EXIT
    trap 'exit 130' INT TERM
}

# Unpacks the program NAME into the first folder that can be written and run from, and sets `program`: unpack NAME DIGEST FOLDER..
unpack() {
    name=$1 digest=$2
    shift 2
    trap 'rm -f "$folder/$name.new.$$"; exit 130' INT TERM
    for folder; do
        is_open "$folder" && unpack_to "$name" "$folder/$name.new.$$" || continue
        keep "$name" "$folder" "$digest" dist
        program=$folder/$name
        trap - INT TERM
        return
    done
    trap - INT TERM
    # where nothing can be kept, one that somebody else keeps will do
    [ -z "$program" ] || return 0
    make_room
    unpack_to "$name" "$own_room/$name" || stop "no program may be run from $* or ${TMPDIR:-/tmp} (noexec?); TMPDIR names another folder, and dist/install puts the program elsewhere"
    program=$own_room/$name
}

# Sets `program` to the program NAME of the sources of this digest in the first of these folders that has it, and returns whether that
# folder can be written: find_kept NAME DIGEST FOLDER..
find_kept() {
    name=$1 digest=$2 program=
    shift 2
    for folder; do
        is_kept "$name" "$folder" "$digest" || continue
        program=$folder/$name
        [ -w "$folder" ] && return
    done
    return 1
}

# Sets `program` to the program NAME of these sources, kept in one of these folders if it can be, by digests: prepare NAME FOLDER..
prepare() {
    name=$1
    shift
    [ "$(uname -sm)" = "Linux x86_64" ] || stop "the program in dist/ and the library are for x86-64 Linux, and this is $(uname -sm): nothing was built or tried there"
    # the sources are stamped before their digest is computed, so that the next call sees what is written meanwhile
    listed=$(list_sources "$name" 2>/dev/null) || listed=
    sources=$(echo "$listed" | stamp_of) || sources=
    digest=$("$here/dist/digest" "$name") || exit 125
    if ! find_kept "$name" "$digest" "$@"; then
        if [ -z "${XVSH_BUILD:-}" ] && is_packed "$name" "$digest"; then
            unpack "$name" "$digest" "$@"
        elif [ -z "$program" ]; then
            [ -n "${XVSH_BUILD:-}" ] || refuse "$name"
            build "$name" "$1" "$digest"
        fi
    fi
    folder=${program%/*}
    if [ -w "$folder" ] && [ "$folder" != "${own_room:-}" ]; then write_stamp "$name" "$folder" "$listed" "$sources"; fi
}

# Sets `program` to the program NAME of these sources, which is unpacked or built first where it has to be.
find_program() {
    folder=$here/out/bin
    program=$folder/$1
    is_wanted "$1" "$folder" && is_current "$1" "$folder" && return
    # what can't be kept in the checkout is kept in the user's cache, unless somebody else could have put a program there
    cached=$(cache_folder) || cached=
    program=$cached/$1
    if [ -O "$cached" ] && [ -O "$program" ] && is_wanted "$1" "$cached" && is_current "$1" "$cached"; then return; fi
    if [ -z "$cached" ] || { [ -e "$cached" ] && ! [ -O "$cached" ]; }; then
        prepare "$1" "$folder"
    else
        prepare "$1" "$folder" "$cached"
    fi
}

# Runs the program NAME with these words: run NAME WORD..
run() {
    name=$1
    shift
    find_program "$name"
    [ -n "${own_room:-}" ] || exec "$program" "$@"
    "$program" "$@"
    exit $?
}
