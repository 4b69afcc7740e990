# Reads the modules' lines (NAME NUMBER GROUP) and what the checker said of them, and prints for each line
#   NUMBER agreed             its module was proved
#   NUMBER refused PART WHY   an error names its declaration; of a long list the first part that one names, else 0
#   NUMBER doubted WHY        an error names its group, so that it or another line there is wrong
#   NUMBER open WHY           none of these, so it is not decided

FILENAME == modulesFile { lines[++count] = $2; moduleOf[$2] = $1; groupOf[$2] = $3; next }
/^run-definitions: [a-z0-9]+ proved$/ { proved[$2] = 1; message = ""; next }
# what stands before this line is what the toolchain said of the module
/^run-definitions: [a-z0-9]+ NOT PROVED$/ { why[$2] = message == "" ? $0 : message; next }
/\/proofs\/[a-z0-9]+\.antt:[0-9]+:[0-9]+: error: / {
    said = $0
    sub(/.*\/proofs\/[a-z0-9]+\.antt:[0-9]+:[0-9]+: error: /, "", said)
    if (said ~ /^`line[0-9]+(-[a-z0-9]+)?`/) refuse(said)
    else if (said ~ /^`lines[0-9]+`/) doubt(said)
    else message = said
    next
}
/error|panic|overflow|no verdict|killed|cannot/ { if (message == "") message = $0 }

function refuse(said,    name, number) {
    name = substr(said, 6)
    sub(/`.*/, "", name)
    number = name
    sub(/-.*/, "", number)
    if (number in partOf) return
    partOf[number] = name == number ? 0 : substr(name, length(number) + 2)
    reason[number] = said
}

function doubt(said,    group) {
    group = substr(said, 7)
    sub(/`.*/, "", group)
    if (!(group in reasonOfGroup)) reasonOfGroup[group] = substr(said, 1, 300)
}

END {
    for (i = 1; i <= count; i++) {
        number = lines[i]
        module = moduleOf[number]
        if (number in partOf) print number " refused " partOf[number] " " substr(reason[number], 1, 300)
        else if (module in proved) print number " agreed"
        else if (groupOf[number] in reasonOfGroup) print number " doubted " reasonOfGroup[groupOf[number]]
        else print number " open " (module in why ? substr(why[module], 1, 300) : "the checker said nothing of it")
    }
}
