# Shows what the oracle's build holds: no instruction for sqrt or fma, no outside function of such a name. Sourced.

inspect() {
    build_oracle
    work=$(mktemp -d) || fail 2 "cannot make a folder for the listing"
    trap 'rm -rf "$work"' EXIT
    trap 'exit 2' HUP INT TERM
    if disassemble llvm-objdump || disassemble objdump; then
        how="a disassembly by $tool"
    else
        # The strings in it may be names of files.
        grep -vE '\.(ascii|asciz|string|file)' "$oracle/oracle.s" >"$work/listing"
        how="the compiler's own assembly text"
    fi
    # Each call of the oracle must be seen, or the listing shows nothing.
    seen=0
    for call in $(sed -n -e 's/^pub fn \([a-z0-9]*\)(.*/\1/p' -e 's/^[a-z_]*!(\([a-z0-9]*\),.*/\1/p' "$tree/api.rs"); do
        grep -q "$call" "$work/listing" || fail 2 "the listing does not show $call"
        seen=$((seen + 1))
    done
    [ "$seen" -gt 0 ] || fail 2 "no call of the oracle was found to look for"
    # x86-64, vectors and the old stack of registers; then Arm, scalar and vectors.
    refuse 'an instruction for sqrt or fma' -w 'v?r?sqrt[sp][sdh]|vfn?m(add|sub|addsub|subadd)[0-9]*[sp][sdh]|fsqrt|frsqrt[es]|fn?m(add|sub)|fn?ml[as]|fml[as]l2?|fn?m(ad|sb)'
    refuse 'an outside function for sqrt or fma' -w '(sqrt|fma)[fl]?'
    refuse 'an outside function for sqrt or fma' -e '\*UND\*.*(sqrt|fma)'
    echo "the oracle holds no sqrt or fma instruction and calls no such function, by $how ($(grep -c . "$work/listing") lines)"
}

refuse() { # WHAT HOW PATTERN
    status=0
    grep -nE "$2" "$3" "$work/listing" >"$work/found" || status=$?
    case $status in
    0) head -n 5 "$work/found" >&2; fail 1 "the oracle uses $1" ;;
    1) ;;
    *) fail 2 "the listing could not be searched" ;;
    esac
}

disassemble() { # TOOL: into the listing, if it is here and knows the instructions
    tool=$1
    command -v "$tool" >/dev/null 2>&1 &&
        "$tool" -d -t "$oracle/liboracle.rlib" >"$work/listing" 2>/dev/null &&
        grep -q '[[:blank:]]retq\{0,1\}[[:blank:]]*$' "$work/listing"
}
