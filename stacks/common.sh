# shellcheck shell=bash
# What the scripts of this folder share. WORK is the folder in which everything is made, LIB that of the library.
here=$(cd "$(dirname -- "$(readlink -f -- "${BASH_SOURCE[0]}")")" && pwd)
export top lists
top=$(dirname -- "$here")
lists=$WORK/lists
suite=bookworm mirror=${DEBIAN_MIRROR:-http://deb.debian.org/debian}

# row WHAT OWN OVER: a row of the table, for the unmodified stack and for the one with the library.
row() { printf '%s\t%s\t%s\n' "$@" >>"$WORK/table"; }

# step NAME COMMAND..: a step, whose output goes to a log; if it fails, the end of the log is shown. It must not be
# called as a condition, since bash would then go on after a failure.
step() {
    local log=$WORK/logs/$1.log status
    echo "${self:-stacks}: $1" >&2
    set +e
    (set -e; "${@:2}") >"$log" 2>&1
    status=$?
    set -e
    [ "$status" = 0 ] || { echo "${self:-stacks}: $1 failed:" >&2; tail -20 "$log" >&2; exit 1; }
}

# debian ARG..: apt-get for Debian's release `suite`, with its own lists, cache and state, so that the machine's don't
# change. A mirror that DEBIAN_MIRROR names may be one of another day.
debian() {
    local apt=$WORK/apt-$suite
    apt-get -qq -o Dir::Etc::sourcelist="$apt/sources.list" -o Dir::Etc::sourceparts=/dev/null \
        -o Dir::State="$apt/state" -o Dir::State::status="$apt/status" -o Dir::Cache="$apt/cache" \
        -o APT::Sandbox::User=root ${DEBIAN_MIRROR:+-o Acquire::Check-Valid-Until=false} "$@"
}

# debian_lists: the lists of packages and of sources of Debian's release `suite`, fetched once.
debian_lists() {
    local apt=$WORK/apt-$suite keys=/usr/share/keyrings/debian-archive-keyring.gpg
    [ ! -e "$apt/fetched" ] || return 0
    mkdir -p "$apt"/{state/lists,cache/archives}/partial
    printf '%s [signed-by=%s] %s %s main\n' deb "$keys" "$mirror" "$suite" deb-src "$keys" "$mirror" "$suite" \
        >"$apt/sources.list"
    : >"$apt/status"
    debian --error-on=any update
    : >"$apt/fetched"
}

# version_of STACK: the version of a stack in the file archives.
version_of() { awk -v stack="$1" '$1 == stack {print $2}' "$here/archives"; }

# fetched STACK: the folder of its source, unpacked from the archive that the file archives names, whose SHA-256 apt
# checks; nothing if Debian no longer has it.
fetched() {
    local version path sum file log=$WORK/logs/$1-fetch.log
    read -r version path sum < <(awk -v stack="$1" '$1 == stack {print $2, $3, $4}' "$here/archives")
    file=$WORK/${path##*/}
    if ! /usr/lib/apt/apt-helper download-file "$mirror/pool/$path" "$file" "SHA256:$sum" >"$log" 2>&1; then
        if grep -q 'Hash Sum mismatch' "$log"; then
            printf '%s\n' "${self:-stacks}: $1 $version: pool/$path has another SHA-256 than $sum" >&2
            return 1
        fi
        printf '%s\n' "${self:-stacks}: $1 $version: Debian doesn't have it any more: pool/$path$(
            sed -n '/^Err:/ {n; s/^ */ (/; s/ *\[.*/)/p; q}' "$log")" >&2
        return 0
    fi
    mkdir -p "$WORK/$1-source"
    tar xf "$file" -C "$WORK/$1-source" --strip-components=1
    echo "$WORK/$1-source"
}

# callgrind FILE COMMAND..: runs a command, and counts its instructions into a file.
callgrind() { valgrind -q --tool=callgrind --callgrind-out-file="$1" "${@:2}"; }

# ms_of COMMAND..: how many milliseconds of processor time a command takes with all that it starts.
ms_of() {
    local TIMEFORMAT='%U %S' both
    both=$({ time "$@" >/dev/null 2>&1; } 2>&1)
    awk '{printf "%d", ($1 + $2) * 1000 + 0.5}' <<<"$both"
}

# timed WHAT COMMAND..: a row of the least processor time of `COMMAND own` and `COMMAND over`, ten times each in turn.
timed() {
    local what=$1 round v ms
    local -A least=()
    shift
    for round in {1..10}; do
        for v in own over; do
            ms=$(ms_of "$@" "$v")
            [ "$round" != 1 ] && [ "$ms" -ge "${least[$v]}" ] || least[$v]=$ms
        done
    done
    row "$what" "${least[own]}" "${least[over]}"
}

# parts TITLE UNIT PARTS OWN OVER: rows of what each part of a program costs, from two profiles (count.py).
parts() {
    python3 "$here/count.py" "$@" | while IFS=$'\t' read -r what own over; do row "$what" "$own" "$over"; done
}

# compared WHAT OWN OVER: a row of what the readers of both printed for a list.
compared() {
    local lines panics refused read_on other
    read -r lines panics refused read_on other < <(python3 "$here/compare.py" "$2" "$3")
    row "$1: lines; those that panic, are rejected by only one, are read otherwise" \
        "$lines; $panics panic, $read_on rejected" "$refused rejected, $other otherwise"
}

# has_go: whether the Go on the path builds quic-go.
has_go() {
    local minor
    minor=$(go version 2>/dev/null | sed -n 's/^go version go1\.\([0-9]*\).*/\1/p') && [ "${minor:-0}" -ge 24 ]
}

# find_go: unpacks Debian 13's Go, if none on the path builds quic-go.
find_go() {
    has_go || unpacked go golang-1.24-go golang-1.24-src
}

# use_go: names that Go, and its folders.
use_go() {
    export GO=go GOCACHE=$WORK/go-cache GOPATH=$WORK/go-path GOFLAGS=-mod=mod GOPROXY=off GOSUMDB=off GOTOOLCHAIN=local
    has_go || GO=$WORK/go/usr/lib/go-1.24/bin/go
}

# unpacked FOLDER PACKAGE..: packages of Debian 13, unpacked into a folder of WORK.
unpacked() {
    local suite=trixie deb
    debian_lists
    mkdir -p "$WORK/$1"
    cd "$WORK/$1"
    debian download "${@:2}"
    for deb in ./*.deb; do dpkg -x "$deb" .; done
}
