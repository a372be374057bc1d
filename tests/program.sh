# Sourced by the other scripts, with the name of a program and its path: sets `program` to that path, or to the
# built program if no path is given, and ends if there is no such program.
program=$(realpath -m "${2:-$(dirname "${BASH_SOURCE[0]}")/../crates/$1/out/$1}")
if [ ! -x "$program" ]; then
    echo "no program $program (rt run < /dev/null in crates/$1 builds it)" >&2
    exit 2
fi
