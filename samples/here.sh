# Read by the scripts beside this one, so that they can be run from any folder: . "$(dirname "$0")/here.sh"
set -eu

# program NAME: the path of a program, from any folder. It is a file or, if there is none, on the PATH.
program() {
    if [ -f "$1" ]; then
        echo "$(cd "$(dirname "$1")" && pwd)/$(basename "$1")"
    else
        command -v "$1" || {
            echo "$1: no such program" >&2
            return 1
        }
    fi
}
