# The rooms as boxes in layers, each above those that it rests on. An arrow that follows from others is left out.
BEGIN { FS = "|"; wide = 1120; gap = 18; margin = 16 }
$1 != "" { rooms++; name[rooms] = $1; what[rooms] = $2; next }
{
    home[$2] = rooms
    crates[rooms] = crates[rooms] (crates[rooms] == "" ? "" : " ") $2
    rests[rooms] = rests[rooms] " " $4
}
function layer_of(r,   k, n, part, most) {
    if (r in layer) return layer[r]
    n = split(rests[r], part, " ")
    for (k = 1; k <= n; k++)
        if (part[k] in home && home[part[k]] != r) {
            direct[r, home[part[k]]] = 1
            if (layer_of(home[part[k]]) + 1 > most) most = layer_of(home[part[k]]) + 1
        }
    layer[r] = most + 0
    return layer[r]
}
function reaches(a, b,   m) { # through another room
    for (m = 1; m <= rooms; m++)
        if (m != b && ((a, m) in direct) && (((m, b) in direct) || reaches(m, b))) return 1
    return 0
}
function text(x, y, class, s) {
    gsub(/&/, "\\&amp;", s)
    printf "<text x=\"%d\" y=\"%d\" class=\"%s\">%s</text>\n", x, y, class, s
}
# The crates of a room in lines of at most as many letters.
function lines_of(r, letters,   n, part, k, line) {
    n = split(crates[r], part, " ")
    count[r] = 0
    line = ""
    for (k = 1; k <= n; k++) {
        if (line != "" && length(line) + length(part[k]) + 2 > letters) { shown[r, ++count[r]] = line ","; line = "" }
        line = line (line == "" ? "" : ", ") part[k]
    }
    shown[r, ++count[r]] = line
}
END {
    for (r = 1; r <= rooms; r++) { l = layer_of(r); inlayer[l]++; if (l > top) top = l }
    y = margin
    for (l = top; l >= 0; l--) {
        if (!inlayer[l]) continue
        width = (wide - 2 * margin - gap * (inlayer[l] - 1)) / inlayer[l]
        if (width > 420) width = 420
        x = (wide - inlayer[l] * width - gap * (inlayer[l] - 1)) / 2
        high = 0
        for (r = 1; r <= rooms; r++) if (layer[r] == l) {
            lines_of(r, int((width - 16) / 7.2))
            if (count[r] > high) high = count[r]
        }
        high = 30 + 17 * high
        for (r = 1; r <= rooms; r++) if (layer[r] == l) {
            left[r] = x; across[r] = width; upper[r] = y; lower[r] = y + high
            x += width + gap
        }
        y += high + 46
    }
    high = y - 46 + margin
    printf "<svg xmlns=\"http://www.w3.org/2000/svg\" viewBox=\"0 0 %d %d\" width=\"%d\" height=\"%d\" role=\"img\" aria-label=\"The rooms, and which rests on which\">\n", wide, high, wide, high
    print "<style>text { font-family: sans-serif; fill: #1a1a1a } .t { font-size: 14px; font-weight: bold } .c { font-size: 13px }</style>"
    print "<defs><marker id=\"a\" viewBox=\"0 0 10 10\" refX=\"9\" refY=\"5\" markerWidth=\"7\" markerHeight=\"7\" orient=\"auto\"><path d=\"M 0 0 L 10 5 L 0 10 z\" fill=\"#444\"/></marker></defs>"
    printf "<rect width=\"%d\" height=\"%d\" fill=\"#ffffff\"/>\n", wide, high
    for (a = 1; a <= rooms; a++)
        for (b = 1; b <= rooms; b++)
            if (((a, b) in direct) && !reaches(a, b))
                printf "<line x1=\"%d\" y1=\"%d\" x2=\"%d\" y2=\"%d\" stroke=\"#777\" stroke-width=\"1.2\" marker-end=\"url(#a)\"/>\n", left[a] + across[a] / 2, lower[a], left[b] + across[b] / 2, upper[b] - 1
    for (r = 1; r <= rooms; r++) {
        printf "<rect x=\"%d\" y=\"%d\" width=\"%d\" height=\"%d\" rx=\"6\" fill=\"%s\" stroke=\"#444\" stroke-width=\"1.2\"/>\n", left[r], upper[r], across[r], lower[r] - upper[r], (layer[r] % 2 ? "#eaf6ea" : "#fdf3dc")
        text(left[r] + 8, upper[r] + 19, "t", name[r])
        for (k = 1; k <= count[r]; k++) text(left[r] + 8, upper[r] + 20 + 17 * k, "c", shown[r, k])
    }
    print "</svg>"
}
