# Holds the declarations of one list (the second file) to those of another (the first), both as declarations.awk writes them. Writes each
# difference, with -v what=NAME for the second; status 1 where there is one, or where there is nothing to hold.

function name_of(declaration) {
    sub(/\(.*/, "", declaration)
    sub(/.* \**/, "", declaration)
    return declaration
}

FILENAME == ARGV[1] { face[name_of($0)] = $0; functions++; next }
{
    name = name_of($0)
    if (name in held) say("declares " name " twice")
    held[name] = 1
    if (!(name in face)) say("declares what the face has not: " $0)
    else if (face[name] != $0) say("declares " $0 "; the face has " face[name])
}

END {
    for (name in face) if (!(name in held)) say("does not declare " face[name])
    if (!functions) say("has no function of the face to be held to")
    exit failed
}

function say(difference) { print what " " difference; failed = 1 }
