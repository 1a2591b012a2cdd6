# Read by the scripts beside this one, with `.`: what they share.

# Says what is amiss, and ends the script.
refuse() {
    echo "bench/$(basename "$0"): $1" >&2
    exit 2
}

# Sees that commands are there, of which each stands before a colon and its package.
needs() {
    for needed in "$@"; do
        command -v "${needed%:*}" >/dev/null ||
            refuse "the command ${needed%:*} is not there; its package is ${needed#*:} (apt-get install ${needed#*:})"
    done
}

# The load of the last 1, 5 and 15 minutes.
load() {
    echo "load $1: $(cut -d ' ' -f 1-3 /proc/loadavg 2>/dev/null || echo unknown)"
}
