# What the scripts beside this file begin with: the top of the repository, the built program, and two functions.
top=$(cd "$(dirname "$0")/.." && pwd)
program=${LFORTRAN_CLI:-$top/crates/lfortran_cli/out/lfortran_cli}
export PYTHONPATH="$top/bench" PYTHONDONTWRITEBYTECODE=1

# Ends the script NAME where one of the tools is missing.
needs() {
    name=$1
    shift
    for tool in "$@"; do
        if ! command -v "$tool" > /dev/null; then
            echo "$name: $tool is missing, nothing was done"
            exit 0
        fi
    done
}

# Goes to a new folder, which is removed at the end.
in_a_new_folder() {
    work=$(mktemp -d)
    trap 'rm -rf "$work"' EXIT
    cd "$work"
}
