# For the tools to source: builds into target/ what is not there or is older than its sources. What it says goes to standard error.

top=$(dirname -- "$(dirname -- "$(readlink -f -- "$0")")")
built=$top/target/tools

stop() {
    echo "${0##*/}: $*" >&2
    exit 1
}

# older FILE SOURCE..: FILE is not there, or something under a source is newer. What rt keeps in a crate's out/ is no source, and changes the time of
# the crate's folder.
older() {
    local file=$1
    shift
    [[ ! -e $file || -n $(find "$@" -regextype posix-extended -regex '(.*/)?crates/[^/]+/out' -prune -o -regex '(.*/)?crates/[^/]+' -type d -o -newer "$file" -print -quit) ]]
}

# put FILE PLACE: a copy, put in its place at once, so that two can build it
put() {
    mkdir -p "${2%/*}"
    cp -- "$1" "$2.$$" && mv -- "$2.$$" "$2"
}

# compile NAME FILE..: the program NAME of sources and archives. It is put in its place at once, so that two can build it.
compile() {
    local name=$1 program=$built/$1
    shift
    older "$program" "$top/tools/src" "$top/include" "$@" || return 0
    command -v cc > /dev/null || stop "cc is not there (README.md, What it needs)"
    mkdir -p "$built"
    cc -std=c11 -O2 -I"$top/include" -o "$program.$$" "$@" || stop "tools/src/$name.c could not be built"
    mv "$program.$$" "$program"
}

# The archive that programs in C link, proved and built by rt in the folder of the crate host_c.
archive=$top/target/staticlib/libhost.a
build_archive() {
    older "$archive" "$top/crates" "$top/crates.txt" || return 0
    command -v rt > /dev/null || stop "rt is not there (README.md, What it needs)"
    mkdir -p "$top/target"
    (
        cd "$top"
        flock 9
        older "$archive" crates crates.txt || exit 0
        echo "${0##*/}: proving and building the engine; from nothing that takes minutes" >&2
        # The time before, so that an edit made meanwhile is seen the next time.
        touch target/archive.start
        (cd crates/host_c && rt lib) 2>&1 < /dev/null | tee target/archive.log | { grep --line-buffered '^rt: ' || :; } >&2 || { tail -n 20 target/archive.log >&2; stop "the engine could not be built"; }
        put crates/host_c/out/libhost_c.a "$archive" || stop "rt left no crates/host_c/out/libhost_c.a: remove crates/host_c/out/ and try again"
        touch -r target/archive.start "$archive"
    ) 9> "$top/target/run.lock"
}
