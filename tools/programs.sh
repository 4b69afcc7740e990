# What tools/build, tools/prove, tools/rattle, tools/run-program and tools/mutate share: what a program or the archive is made of, and what was built last.
# Read by them, in sh, with `me`, `root` and `unset CDPATH` set.
built=$root/.built

say() { printf '%s: %s\n' "$me" "$*" >&2; }
die() { say "$*"; exit 2; }
misused() { die "$*; tools/$me --help says how it is used"; }
needs_rt() {
    [ "$(uname -m)" = x86_64 ] || die "the Rattle toolchain is for x86-64, and this machine is $(uname -m)"
    command -v rt >/dev/null 2>&1 ||
        die "rt, the command of the Rattle toolchain, is not on the PATH: install the toolchain (README.md, 'What is needed') and put its folder bin/ on the PATH"
}

# The crates named and all that they rest on, each after what it rests on, as NAME:DEP:DEP.., of a static library NAME:staticlib:DEP..
closure() { # NAMES
    awk -v me="$me" -v names="$*" '
        function visit(n,    deps, count, k, line) {
            if (!(n in rest) || n in seen) return
            seen[n] = 1
            count = split(rest[n], deps, " ")
            line = n
            for (k = 1; k <= count; k++) { line = line ":" deps[k]; visit(deps[k]) }
            print line
        }
        { sub(/#.*/, ""); at = index($0, ":") }
        at { split(substr($0, 1, at - 1), n, " "); rest[n[1]] = (n[2] == "staticlib" ? "staticlib " : "") substr($0, at + 1) }
        END {
            count = split(names, wanted, " ")
            for (k = 1; k <= count; k++) {
                if (!(wanted[k] in rest)) { print me ": crates.txt lists no crate " wanted[k] >"/dev/stderr"; exit 2 }
                visit(wanted[k])
            }
        }' "$root/crates.txt"
}

# One sum over all that crates are made of: their sources, by name and content, and what crates.txt says of them. No time counts: a
# checkout changes times and no content, and a copy can have content that is new under a time that is old.
sum_of() ( # NAMES
    cd "$root" && lines=$(closure "$@") || exit 2
    set -f
    set --
    for line in $lines; do
        for part in src specs proofs; do
            [ ! -d "crates/${line%%:*}/$part" ] || set -- "$@" "crates/${line%%:*}/$part"
        done
    done
    [ $# -gt 0 ] || exit 2
    sum=$({ printf '%s\n' "$lines"; find -L "$@" -type f -exec sha256sum {} +; } | LC_ALL=C sort | sha256sum) && printf '%s\n' "${sum%% *}"
)
sum_of_all() {
    # shellcheck disable=SC2046
    sum_of $(sed -n 's/#.*//; s/^[[:blank:]]*\([A-Za-z0-9_]*\).*:.*/\1/p' "$root/crates.txt")
}

# The toolchain's folder, and its identity. Nothing where rt is not on the PATH: what is built runs without it.
find_kit() { # sets kit and kit_id
    kit='' kit_id=''
    at=$(command -v rt) || return 0
    while [ -L "$at" ]; do
        link=$(readlink "$at")
        case $link in /*) at=$link ;; *) at=${at%/*}/$link ;; esac
    done
    kit=${at%/*/*}
    # rt may be a script that calls the toolchain's own
    [ -r "$kit/KIT-ID" ] || kit=$(dirname "$(rt doc 2>/dev/null)")
    [ -r "$kit/KIT-ID" ] && IFS= read -r kit_id <"$kit/KIT-ID" || kit_id=unknown
}

is_static() { # NAME
    sed -n 's/^[[:blank:]]*\([A-Za-z0-9_]*\)[[:blank:]]\{1,\}staticlib[[:blank:]]*:.*/\1/p' "$root/crates.txt" 2>/dev/null | grep -qxF -e "$1"
}
# What is built of a crate: of a program, .built/NAME; of a static library NAME_c, .built/libNAME.a.
product() { # NAME: sets file
    if [ -f "$root/crates/$1/src/main.rt" ]; then file=$built/$1; else file=$built/lib${1%_c}.a; fi
}
# .built/NAME.sum says from which sources and by which toolchain it was built last.
is_fresh() { # NAME; find_kit goes before it
    product "$1"
    kept_sum='' kept_kit=''
    [ ! -r "$built/$1.sum" ] || read -r kept_sum kept_kit <"$built/$1.sum"
    [ -f "$file" ] && [ "$(sum_of "$1")" = "$kept_sum" ] && { [ -z "$kit" ] || [ "$kit_id" = "$kept_kit" ]; }
}

# Whether rt ci has passed here, on the sources that are there now, and what it proved is all that stands in crates/*/out: ./test writes .built/passed, where
# nothing stood there before it. What a later check leaves there has a stamp.
is_passed() { # find_kit goes before it
    [ -r "$built/passed" ] && [ "$(cat "$built/passed")" = "$(sum_of_all) $kit_id" ] && ! ls "$root"/crates/*/out/rlib/stamp >/dev/null 2>&1
}

# Ends all processes below this one. Each is stopped first, so that none starts another while they are looked for.
end_below() {
    stopped=' ' is_new=yes
    while [ -n "$is_new" ]; do
        is_new=''
        for process in $(cat /proc/[0-9]*/stat 2>/dev/null | awk -v top="$$" '
            { id = $1; sub(/.*\) [^ ]+ /, ""); above[id] = $1 }
            END { for (id in above) { for (p = above[id]; p in above && p != top; ) p = above[p]; if (p == top) print id } }'); do
            case $stopped in *" $process "*) continue ;; esac
            kill -STOP "$process" 2>/dev/null || continue
            stopped="$stopped$process " is_new=yes
        done
    done
    [ "$stopped" = ' ' ] || kill -KILL $stopped 2>/dev/null
    wait
}

# How many crates rt works on at a time: one proof can take more than a gigabyte.
jobs=$(getconf _NPROCESSORS_ONLN 2>/dev/null) || jobs=1
[ "$jobs" -le 4 ] || jobs=4
