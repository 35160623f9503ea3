# Runs the commands given, each a line of words, side by side. What one says is told whole, in their order; the status is 0
# where that of each is. A command may be a function of the script, so no name of a variable is one that scripts use.
side_by_side() (
    said_in=$(mktemp -d) || exit
    trap 'rm -rf -- "$said_in"' EXIT
    of_all=0
    begun=()
    for line in "$@"; do
        # A command may have arguments.
        # shellcheck disable=SC2086
        $line > "$said_in/${#begun[@]}" 2>&1 &
        begun+=("$!")
    done
    for at in "${!begun[@]}"; do
        wait "${begun[at]}" || of_all=$?
        cat -- "$said_in/$at"
    done
    exit "$of_all"
)
