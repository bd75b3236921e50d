# Builds an adapter written in C, once for these sources and words, and runs it in place of the shell. Not to be run itself.
run_built() {
    local name=$1 key room program
    shift
    room=${XDG_CACHE_HOME:-$HOME/.cache}/mkstrike-suite
    key=$(cat "$here/$name.c" "$here/request.h" <(echo "$@") | sha256sum | cut -c1-16)
    program=$room/$name-$key
    if [ ! -x "$program" ]; then
        mkdir -p "$room"
        cc -std=c99 -O2 -Wall -o "$program.$$" "$here/$name.c" "$@" >&2 || exit 1
        mv "$program.$$" "$program"
    fi
    exec "$program"
}
# Builds an adapter written in Go, once for these sources and those of a package in GOPATH, and runs it in place of the shell.
run_go() {
    local name=$1 room program
    export GO111MODULE=off GOPATH=$3
    room=${XDG_CACHE_HOME:-$HOME/.cache}/mkstrike-suite
    program=$room/$name-$(cat "$GOPATH/src/$2"/*.go "$here/$name.go" "$here/request.go" | sha256sum | cut -c1-16)
    if [ ! -x "$program" ]; then
        mkdir -p "$room"
        go build -o "$program.$$" "$here/$name.go" "$here/request.go" >&2 || exit 1
        mv "$program.$$" "$program"
    fi
    exec "$program"
}
