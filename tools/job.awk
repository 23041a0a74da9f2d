# A packed job, the program's answer to it, and both in words. The files come as operands:
#     part=job FILE (one line: the count of bytes, the bytes as hexadecimal digits, and in the pointed mode the ratio's) part=answer FILE part=origins FILE
# and before them segment=N, where --why asks for output segment N. The origins are there where --show asks for the table.

part == "job" {
    bytes = $1
    head = hex(substr($2, 1, 4))
    closed = head >= 32768
    zero_bits = int(head / 4096) % 8
    v = head % 4096
    offset = substr($2, 5, 16)
    eps = substr($2, 21, 16)
    source = substr($2, 37)
    ratio = $3
}

part == "answer" && FNR == 1 {
    number = $1
    place = $2
    out_closed = $3 == "closed"
}

part == "answer" && FNR > 1 {
    out_x[FNR - 2] = $1
    out_y[FNR - 2] = $2
    out_bulge[FNR - 2] = $3
    mark[FNR - 2] = $4
}

part == "origins" && FNR > 1 { origin[FNR - 2] = $0 }

# the numbers of source vertex i, as doubles
function x_of(i) { return substr(source, 48 * i + 1, 16) }
function y_of(i) { return substr(source, 48 * i + 17, 16) }
function bulge_of(i) { return substr(source, 48 * i + 33, 16) }

function within(double, least, most) { return is_finite(double) && value(double) >= least && value(double) <= most }

function out_of_range(whose, what, double, range) { return whose " out of range (" what " " decimal(double) "; " range ")" }

function bad_number(    whose, plane) {
    plane = "x, y and offset lie in ±1000000"
    if (place == v) return out_of_range("the offset is", "it is", offset, plane)
    if (place == v + 1) return out_of_range("ε is", "it is", eps, "ε lies in 1e-9 to 0.01")
    if (place == v + 2) return out_of_range("the ratio is", "it is", ratio, "a ratio lies in 1 to 10")
    whose = "vertex " place " is"
    if (!within(x_of(place), -1000000, 1000000)) return out_of_range(whose, "x is", x_of(place), plane)
    if (!within(y_of(place), -1000000, 1000000)) return out_of_range(whose, "y is", y_of(place), plane)
    return out_of_range(whose, "its bulge is", bulge_of(place), "a bulge lies in ±1000000000")
}

function point_of(i) { return "(" decimal(x_of(i)) ", " decimal(y_of(i)) ")" }

# the vertex that a vertex is joined to, and the one that number 5's is joined to
function vertex_after(i) { return i + 1 < v ? i + 1 : 0 }
function after_place() { return vertex_after(place) }

# from 1e-8 on a bulge makes an arc
function is_arc(i) { return size(bulge_of(i)) >= 0.00000001 }

# the two may differ in the signs of zeros, and are told apart then
function repeated(    other) {
    other = after_place()
    return "vertices " place " and " other (place + 1 < v ? "" : ", the last and the first,") " are the same point, " \
        point_of(place) (point_of(place) == point_of(other) ? "" : " and " point_of(other)) ": leave one of them out"
}

function malformed() {
    if (bytes == 0) return "there is nothing at all to read"
    if (bytes < 18) return "it is no packed job (" bytes (bytes == 1 ? " byte; " : " bytes; ") "the smallest job has 18)"
    if (zero_bits) return "it is no packed job (the three zero bits after the closed mark are not all 0)"
    if (v > 512) return "the packed job has too many vertices (" v "; this program takes 512)"
    return "the packed job has a wrong size (" bytes " bytes; with " v " vertices it has " 18 + 24 * v ")"
}

# refusal(): the answer's number and place in words
function refusal() {
    if (number == 3) return bad_number()
    if (number == 5) return repeated()
    if (number == 6) return "the built output holds a NaN or an infinity"
    if (number == 7) return malformed()
    if (number == 8) return "there is no output segment " segment "; they are numbered from 0, and --show tells how many there are"
    return "place " place
}

# empty(): why nothing is left. With two vertices or more, no move ended ε or more from the first point, or the source is one
# open arc, which collapsed.
function empty(    ends) {
    if (v < 2) return "empty, nothing is left"
    ends = "ended within ε (" decimal(eps) ") of where "
    if (v == 2 && !closed && is_arc(0))
        return "empty, since the one arc collapsed, or " ends "it began: then take a smaller ε, down to 1e-9"
    return "empty, since every move " ends "the first began; if more should be left, take a smaller ε, down to 1e-9"
}

# count(): what a done answer has; the first twelve invalid segments are named
function count(    i, segments, invalid, list) {
    if (place == 0) return empty()
    for (i = 0; i < place; i++) {
        if (mark[i] != "-") segments++
        if (mark[i] != "!") continue
        invalid++
        if (invalid <= 12) list = list (invalid > 1 ? ", " : "") i
    }
    if (invalid > 12) list = list " .."
    return (out_closed ? "closed, " : "open, ") place " vertices, " segments (segments == 1 ? " segment, " : " segments, ") \
        (invalid ? invalid " invalid (" (invalid == 1 ? "number " : "numbers ") list ")" : "none invalid")
}
