# Read by the scripts beside this one that run a server of X, with `.`, after they set `bench` to this folder: `work` is a folder
# for their files, which goes at their end, and so does the server.
. "$bench/common.sh"
needs Xvfb:xvfb

work=$(mktemp -d)
server=
finish() {
    if [ -n "$server" ]; then kill "$server" 2>/dev/null || true; fi
    rm -rf "$work"
}
trap finish EXIT
trap 'exit 130' INT TERM

# Starts the server, with a screen of 1024 by 768 and 8 bits a pixel. It picks a free display, and writes its number once it
# answers; `display` is then its name.
serve() {
    Xvfb -displayfd 3 -screen 0 1024x768x8 -nolisten tcp 3>"$work/display" 2>"$work/errors" &
    server=$!
    waited=0
    while [ ! -s "$work/display" ]; do
        if [ "$waited" -ge 20 ] || ! kill -0 "$server" 2>/dev/null; then
            cat "$work/errors" >&2
            refuse "Xvfb doesn't answer"
        fi
        sleep 1
        waited=$((waited + 1))
    done
    display=":$(cat "$work/display")"
}
