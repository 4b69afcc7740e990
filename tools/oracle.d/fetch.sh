# What tools/oracle fetches from Debian, checked by SHA-256 and unpacked into the store. Sourced.

fetch() { # USE FOLDER: every package of the use, unpacked into the folder
    work=$store/fetch.$$
    mkdir -p "$work/out"
    trap 'rm -rf "$work"' EXIT
    trap 'exit 2' HUP INT TERM
    while read -r use bytes sum path; do
        [ "$use" = "$1" ] || continue
        say "fetching ${path##*/} ($(((bytes + 500000) / 1000000)) MB)"
        case $path in
        main:*) pool=debian/pool/main ;;
        *) pool=debian-security/pool/updates/main ;;
        esac
        pool=${PASKEROTIM_POOL:-http://deb.debian.org/$pool} path=${path#main:}
        download "$pool/$path" "$work/package" || fail 3 "cannot fetch $pool/$path"
        [ "$(sha256sum "$work/package" | cut -d ' ' -f 1)" = "$sum" ] || fail 3 "$path is not the package that was named"
        unpack "$work/package" "$work/out" "$1" || fail 2 "cannot unpack $path"
    done <"$glue/packages"
    mkdir -p "$(dirname "$2")"
    [ -d "$2" ] || mv "$work/out" "$2" || fail 2 "cannot keep $2"
    rm -rf "$work"
    trap - EXIT HUP INT TERM
}

download() { # URL FILE
    seconds=${PASKEROTIM_SECONDS:-300}
    case $seconds in 0* | *[!0-9]*) fail 2 "PASKEROTIM_SECONDS needs a number of seconds from 1 on, not '$seconds'" ;; esac
    if command -v curl >/dev/null 2>&1; then
        curl -fsSL --connect-timeout 15 --max-time "$seconds" -o "$2" "$1"
    elif command -v wget >/dev/null 2>&1; then
        timeout "$seconds" wget -q --timeout=15 --tries=2 -O "$2" "$1"
    else
        fail 3 "neither curl nor wget is here to fetch with"
    fi
}

unpack() { # PACKAGE FOLDER USE: of the text only libm's own tree, of the vectors the archive that holds them, of SoftFloat its files
    case $3 in text) only=./$libm ;; vectors) only=./$glibc ;; softfloat) only="./$runtime/softfloat ./$runtime/softfloat.c ./$runtime/softfloat.h" ;; *) only= ;; esac
    if command -v dpkg-deb >/dev/null 2>&1; then
        dpkg-deb --fsys-tarfile "$1"
    else
        ar p "$1" data.tar.xz | xz -dc
    fi | tar -xf - -C "$2" $only || return
    [ "$3" != vectors ] || (cd "$2" && xz -dc "$glibc" | tar -xf - $vectors && rm "$glibc")
}

libm=usr/src/rustc-1.96.0/library/compiler-builtins/libm
fetch_text() {
    text=$store/text/$libm/src
    [ -d "$text" ] || fetch text "$store/text"
}

glibc=usr/src/glibc/glibc-2.36.tar.xz
math=glibc-2.36/math
vectors="$math/auto-libm-test-out-sqrt $math/auto-libm-test-out-fma $math/libm-test-sqrt.inc $math/libm-test-fma.inc $math/libm-test-scalbn.inc"
fetch_vectors() {
    [ -d "$store/vectors/$math" ] || fetch vectors "$store/vectors"
}

# The package is made for one kind of machine; what is taken of it is text alone, the same in all of them.
runtime=usr/share/systemtap/runtime
fetch_softfloat() {
    [ -d "$store/softfloat/$runtime" ] || fetch softfloat "$store/softfloat"
}
