# Takes the programs that README.md shows out of it: the text after `$ cat FILE`, the command after that, and what the command writes. They go to
# FILE, FILE.command and FILE.out in the folder -v into=FOLDER. Writes the name of each FILE.

!/^    / { file = to = ""; next }
/^    \$ cat [^ ]+$/ { file = $3; to = into "/" file; print file; next }
/^    \$ / {
    to = ""
    if (file == "") next
    print substr($0, 7) >(into "/" file ".command")
    to = into "/" file ".out"
    file = ""
    next
}
to != "" { print substr($0, 5) >to }
