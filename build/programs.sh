# Functions that ./cqf, ./prove and ./test share: they find the program's sources, find the folder where builds are kept, and make a build. The
# scripts source this file. `top` must be the top folder of the repository.

# a write beyond the limit of `ulimit -f` fails, which the program reports as an output fault; no signal ends the program
trap '' XFSZ

# the absolute path of the folder for temporary files
temporary=${TMPDIR:-/tmp}
[[ $temporary == /* ]] || temporary=$PWD/$temporary

# prints the lines of crates.txt for the program's crate and all crates that it depends on, lowest first
lines_of_crates() {
    awk -F: '
        !/^#/ && NF > 1 { split($1, words, " "); lines[words[1]] = $0; libraries[words[1]] = $2 }
        function visit(name,    names, count, k) {
            if (!(name in libraries) || name in seen) return
            seen[name] = 1
            count = split(libraries[name], names, " ")
            for (k = 1; k <= count; k++) visit(names[k])
            print lines[name]
        }
        END { visit("cqf") }
    ' "$1/crates.txt"
}

# prints the names of those crates
stands_on() {
    lines_of_crates "$1" | sed 's/[ :].*//'
}

# finds the program's source files below the working folder, without the edits that proofs must refuse; the words are passed to `find`
find_sources() {
    local names
    mapfile -t names < <(stands_on .)
    find HANDLES "${names[@]/#/crates/}" \( -name out -o -name must-fail -o -name wrong \) -prune -o \
        -type f \( -name '*.rt' -o -name '*.antt' -o -name HANDLES \) "$@"
}

# prints the hash of the sources in a folder: of their names and contents, and of the lines of crates.txt for their crates
hash_of() {
    local sum
    sum=$(cd "$1" && { lines_of_crates . && find_sources -print0 | LC_ALL=C sort -z | xargs -0 sha256sum; } | sha256sum) || return
    echo "${sum%% *}"
}

# prints a stamp that stays the same unless a source is written, replaced, added or removed. It is a hash of names, sizes, inodes and times, and
# takes a third of the time of `hash_of`
stamp_of() {
    local sum
    sum=$(cd "$1" && { lines_of_crates . && find_sources -printf '%p %s %i %T@ %C@\n' | LC_ALL=C sort; } | sha256sum) || return
    echo "${sum%% *}"
}

# checks whether a folder exists or can be made, and can be written
is_writable() {
    { [ -d "$1" ] || mkdir -p "$1" 2>/dev/null; } && [ -w "$1" ]
}

# checks whether a folder can be made and written, and belongs to this user, so that nobody else can put a program there
is_own() {
    (umask 077 && is_writable "$1") && [ -O "$1" ] && [ -O "${1%/*}" ] && [ ! -L "${1%/*}" ]
}

# sets `kept` to the folder where builds are kept: built/, or if that can't be written, a folder of the user for this copy of the repository, in
# the cache or else among the temporary files; empty if no such folder can be written
find_kept() {
    kept=$top/built
    ! is_writable "$kept" || return 0
    local cache=${XDG_CACHE_HOME:-} name
    [[ $cache == /* ]] || cache=${HOME:+$HOME/.cache}
    name=$(printf %s "$top" | sha256sum)
    for kept in ${cache:+"$cache/cqf/${name:0:16}"} "$temporary/cqf-$UID/${name:0:16}"; do
        ! is_own "$kept" || return 0
    done
    kept=
}

# sets `hash` to the hash of the sources here: the one that is kept with their present stamp, or else a new one
find_hash() {
    local stamp folder kept_stamp
    stamp=$(stamp_of "$top") || exit 2
    for folder in "$top/built" ${kept:+"$kept"}; do
        [ -r "$folder/stamp" ] && read -r kept_stamp hash <"$folder/stamp" && [ "$kept_stamp" = "$stamp" ] && [ "${#hash}" -eq 64 ] && return
    done
    hash=$(hash_of "$top") || exit 2
    [ -z "$kept" ] || { echo "$stamp $hash" >"$kept/stamp"; } 2>/dev/null || true
}

# sets `program` to the kept program of a name, `proved` or `quick`, that was built from the present sources; fails if none is kept
find_program() {
    local folder built_of
    for folder in "$top/built" ${kept:+"$kept"}; do
        program=$folder/$1
        [ -f "$program" ] && [ -x "$program" ] && [ -r "$program.sources" ] && read -r built_of <"$program.sources" && [ "$built_of" = "$hash" ] && return
    done
    return 1
}

# ends with status 2 if a command of the toolchain is missing
want_toolchain() {
    local command
    for command in rt python3; do
        command -v "$command" >/dev/null && continue
        echo "cqf: the command '$command' is not on the PATH, and the Rattle toolchain needs it" >&2
        exit 2
    done
}

# the running process, and the folder in which a build works
attended=
room=

# runs a command without input, as a process group of its own that ends if this shell is asked to end
attend() {
    local status=0
    set -m
    "$@" </dev/null &
    attended=$!
    set +m
    wait "$attended" || status=$?
    attended=
    return "$status"
}

# calls a function when this shell ends, also if a signal ends it
at_end() {
    # shellcheck disable=SC2064
    trap "$1" EXIT
    trap 'exit 129' HUP
    trap 'exit 130' INT
    trap 'exit 143' TERM
}

# runs a command without the lock, so that none of its processes holds the lock if this shell is killed
unlocked() {
    exec 9>&-
    "$@"
}

# ends the running process, and removes the files that it would leave
clean_up() {
    if [ -n "$attended" ]; then
        kill -KILL -- "-$attended" || true
        wait "$attended" || true
    fi 2>/dev/null
    # processes of the toolchain end shortly after it, and may write until then
    [ -z "$room" ] || rm -rf "$room" 2>/dev/null || { sleep 1 && rm -rf "$room"; }
    [ -z "$room" ] || rm -f "$making.room" "$making.next"
    attended=''
    room=''
}

# takes the lock of a build, and waits if another build has it. The lock is on the open file, so a killed build releases it
LOCK='
import fcntl, sys
try:
    try:
        fcntl.flock(9, fcntl.LOCK_EX | fcntl.LOCK_NB)
    except BlockingIOError:
        print("cqf: another build of the same is under way; waiting for it", file=sys.stderr)
        fcntl.flock(9, fcntl.LOCK_EX)
except OSError as fault:
    print(f"cqf: no lock can be had ({fault.strerror}), so builds are not kept apart", file=sys.stderr)
    sys.exit(1)
'

# removes the files that a killed build left
sweep() {
    local left
    if [ -r "$making.room" ] && read -r left <"$making.room" && [[ $left == */cqf-room.?????? ]] && [ -O "$left" ]; then
        rm -rf "$left" || true
    fi
    rm -f "$making.room" "$making.next"
}

# copies the sources of the crates that the program depends on, as a repository of their own
lay_out() {
    local name
    mkdir -p "$1/.git" "$1/crates"
    cp "$top/HANDLES" "$1/"
    lines_of_crates "$top" >"$1/crates.txt"
    for name in $(stands_on "$1"); do
        cp -R --no-preserve=mode "$top/crates/$name" "$1/crates/"
        rm -rf "$1/crates/$name/out" "$1/crates/$name/must-fail" "$1/crates/$name/wrong"
    done
}

# ends with status 2 if one of these files is a folder
want_files() {
    local file
    for file; do
        [ -d "$file" ] || continue
        echo "cqf: $file is a folder, and a build is kept there: remove it" >&2
        exit 2
    done
}

# sets `program` to the program of a name, and builds it unless it is kept once the lock is taken. The other words are a command, which gets two
# more words: a copy of the sources and the file for the program. The build is kept with the hash of that copy, so later changes don't affect it
build() {
    local name=$1 of
    shift
    want_toolchain
    if [ -z "$kept" ]; then
        echo "cqf: no folder for a build: $top/built can't be written, nor the cache (XDG_CACHE_HOME), nor the temporary files (TMPDIR)" >&2
        exit 2
    fi
    making=$kept/$name
    want_files "$making" "$making.lock" "$making.next" "$making.sources"
    at_end clean_up
    exec 9>"$making.lock"
    ! attend python3 -c "$LOCK" || sweep
    find_hash
    if ! find_program "$name"; then
        [ "$kept" = "$top/built" ] || echo "cqf: $top/built can't be written; what is built is kept in $kept" >&2
        room=$(mktemp -d "$temporary/cqf-room.XXXXXX") || exit 2
        echo "$room" >"$making.room"
        lay_out "$room/sources"
        of=$(hash_of "$room/sources") || exit 2
        attend unlocked "$@" "$room/sources" "$room/program" || exit 2
        rm -f "$making.sources"
        mv "$room/program" "$making.next"
        mv "$making.next" "$making"
        echo "$of" >"$making.sources"
        program=$making
    fi
    clean_up
    trap - EXIT HUP INT TERM
    exec 9>&-
}

# makes the quick program from a copy of the sources
make_quick() {
    echo "cqf: building the program unproved, optimised and with run-time checks, in three to four minutes; ./prove builds the proved one" >&2
    (cd "$1" && TMPDIR=${1%/*} "$top/build/quick.py" "$2" >&2) && [ -x "$2" ] && return
    echo "cqf: the build failed" >&2
    return 1
}

# sets `program` to the program of these sources: the proved one if it is kept, else the quick one, which is built if necessary
want_program() {
    find_kept
    find_hash
    find_program proved || find_program quick || build quick make_quick
}
