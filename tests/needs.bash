# need THING PACKAGE: sees that the command, or the file of that path, is there, and installs Debian's package if it is not.
there() { case $1 in /*) [ -e "$1" ] ;; *) command -v "$1" >/dev/null ;; esac; }
need() {
    there "$1" && return
    { apt-get update && apt-get install -y --no-install-recommends "$2"; } >/dev/null 2>&1 || true
    there "$1" || { echo "$1 is missing and could not be installed (Debian: $2)"; exit 1; }
}
