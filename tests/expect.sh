# What tests/build, tests/pk, tests/pk_list, tests/bindings and tests/outside share: commands run, and held to what they must write. Read by them, in sh, with a folder of its own for each.
scratch=$(mktemp -d) || exit 2
trap 'rm -rf "$scratch"' EXIT
tried=0 failed=0

wrong() { # WHAT
    failed=$((failed + 1))
    echo "FAILED: $1"
    sed 's/^/  | /' "$scratch/said" | cut -c1-200 | head -n 20
}
# Runs a command on the file $scratch/in and holds its exit status and all that it writes, on either stream, to what they must be.
gives() { # STATUS TEXT COMMAND..
    status=$1 text=$2
    shift 2
    "$@" <"$scratch/in" >"$scratch/said" 2>&1
    given=$?
    tried=$((tried + 2))
    [ "$given" -eq "$status" ] || wrong "exit status $given, not $status: $*"
    printf '%s' "$text" | cmp -s - "$scratch/said" || wrong "it does not write just this: $text (command: $*)"
}
# The same for a part of what it writes.
says() { # STATUS TEXT COMMAND..
    status=$1 text=$2
    shift 2
    "$@" <"$scratch/in" >"$scratch/said" 2>&1
    given=$?
    tried=$((tried + 2))
    [ "$given" -eq "$status" ] || wrong "exit status $given, not $status: $*"
    grep -qF -- "$text" "$scratch/said" || wrong "it does not say: $text (command: $*)"
}
holds() { # WHAT COMMAND..
    what=$1
    shift
    tried=$((tried + 1))
    "$@" >"$scratch/said" 2>&1 || wrong "$what"
}
