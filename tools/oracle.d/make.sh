# The oracle's tree, the archive, and programs built with both. Sourced by tools/oracle.

# libm's files that the operations need.
files='frexp generic/ceil generic/copysign generic/fabs generic/floor generic/fma generic/fma_wide generic/fmod generic/frexp
generic/ilogb generic/scalbn generic/sqrt generic/trunc ilogb modf modff nextafter nextafterf remquo support/big
support/env support/float_traits support/hex_float support/int_traits support/int_traits/narrowing_div support/macros support/modular'

assemble() { # sets tree
    [ -z "$tree" ] || return 0
    fetch_text
    part=$store/tree.$$
    rm -rf "$part"
    mkdir -p "$part"
    for name in lib api; do
        cp "$glue/$name.rs" "$part/$name.rs"
        echo "$name.rs: tools/oracle.d" >>"$part/ORIGIN"
    done
    for name in $files; do
        file=math/$name.rs
        mkdir -p "$part/$(dirname "$file")"
        if [ -n "$given" ] && [ -f "$given/$file" ]; then
            cp "$given/$file" "$part/$file"
            echo "$file: given, 0.2.16" >>"$part/ORIGIN"
        elif [ -f "$text/$file" ]; then
            cp "$text/$file" "$part/$file"
            echo "$file: Debian rust-web-src 1.96, a little later than 0.2.16" >>"$part/ORIGIN"
        else
            fail 2 "neither text has $file"
        fi
    done
    # The files in which a status of sqrt, floor, ceil, trunc and fma at 64 is decided.
    statuses=given
    for name in generic/floor generic/ceil generic/trunc generic/sqrt generic/fma support/env; do
        grep -q "^math/$name.rs: given" "$part/ORIGIN" || statuses='not given: values alone count'
    done
    echo "statuses: $statuses" >>"$part/ORIGIN"
    tree=$store/tree-$(sum_of "$part")
    # A tree of the same name has the same files.
    if [ -d "$tree" ]; then rm -rf "$part"; else mv "$part" "$tree"; fi
}

sum_of() { # FOLDER..: a checksum of its files and their names
    find "$@" -type f | LC_ALL=C sort | while IFS= read -r file; do cksum <"$file"; echo "${file##*/}"; done | cksum | tr -s ' \t' '--'
}

make_archive() { # CRATE: sets archive
    [ "$machine" = x86_64 ] || fail 3 "the Rattle toolchain is for x86-64, and this machine is $machine"
    rt version >/dev/null 2>&1 || fail 3 "rt, the command of the Rattle toolchain, does not run"
    sed -n 's/^[[:blank:]]*\([A-Za-z0-9_]*\)[[:blank:]]\{1,\}staticlib[[:blank:]]*:.*/\1/p' "$root/crates.txt" | grep -qxF -e "$1" ||
        fail 2 "crates.txt has no static library $1"
    "$here/build" "$1" || fail 2 "the static library $1 could not be built"
    archive=$root/.built/lib${1%_c}.a
}

find_compiler() { # sets compiler, its name and version
    compiler=$(rustc --version 2>/dev/null) || fail 3 "no rustc that runs was found"
}

# No processor is named, so what the compiler may use is what every machine of the kind has.
build_flags() {
    echo --edition 2021 -C opt-level=3 -C codegen-units=1
    [ -z "$checked" ] || echo -C overflow-checks=on -C debug-assertions=on
}

build_oracle() { # sets oracle, the folder with liboracle.rlib and its assembly text
    find_compiler
    assemble
    flags=$(build_flags)
    if [ -f "$tree/ORIGIN" ] && grep -q '^statuses: given' "$tree/ORIGIN"; then flags="$flags --cfg given_statuses"; fi
    oracle=$store/built/$(echo "$compiler$flags" | cksum | tr -s ' \t' '--')-$(sum_of "$tree")
    [ ! -f "$oracle/liboracle.rlib" ] || return 0
    part=$oracle.$$
    mkdir -p "$part"
    # $flags is words. libm's own text may warn; a build of ours may not.
    rustc $flags --cap-lints allow --crate-name oracle --crate-type rlib --emit "link=$part/liboracle.rlib,asm=$part/oracle.s" "$tree/lib.rs" ||
        fail 2 "the oracle could not be built"
    if [ -d "$oracle" ]; then rm -rf "$part"; else mv "$part" "$oracle"; fi
}

build_program() { # SOURCE RUSTC-WORDS..
    build_oracle
    [ -n "$archive" ] || make_archive paskerotim_c
    if [ "$archive" != none ]; then
        folder=$(cd "$(dirname "$archive")" && pwd -P)
        # By its whole name, so that it may have any.
        set -- "$@" -L "native=$folder" -l "static:+verbatim=${archive##*/}"
    fi
    if [ -x "$program" ] && [ "$(cat "$program.made" 2>/dev/null)" = "$(inputs "$@")" ]; then return 0; fi
    mkdir -p "$(dirname "$program")" || fail 2 "cannot make a folder for $program"
    rm -f "$program.made"
    rustc $(build_flags) --extern "oracle=$oracle/liboracle.rlib" --out-dir "$(dirname "$program")" --emit "link=$program.$$,dep-info=$program.d" "$@" ||
        fail 2 "$1 could not be built"
    mv "$program.$$" "$program"
    inputs "$@" >"$program.made"
}

# What a program is made of, by checksums: where nothing of it has changed it is not built again. The compiler wrote down
# which files it read.
inputs() { # SOURCE RUSTC-WORDS..
    echo "$oracle $*"
    [ "$archive" = none ] || cksum "$archive"
    [ ! -f "$program.d" ] || sed -n '1s/^[^:]*: *//p' "$program.d" | tr ' ' '\n' | while IFS= read -r file; do cksum "$file" 2>&1 || :; done
}
