# What the program of crates/rawsame answers to two outputs, in words. The files come as operands:
#     part=answer FILE part=A FILE part=B FILE
# and the names of the two in NAME_A and NAME_B of the environment, where a backslash stays one.

part == "answer" && FNR == 1 {
    listed = $2
    unmatched = $3
    marks = $4
    next
}

part == "answer" {
    place[FNR - 2] = $1
    fields[FNR - 2] = $2
    next
}

FNR == 1 {
    count[part] = $2
    ends[part] = $3
    next
}

{
    x[part, FNR - 2] = $1
    y[part, FNR - 2] = $2
    bulge[part, FNR - 2] = $3
    mark[part, FNR - 2] = $4
    if ($4 != "-" && count[part] > 1) segments[part]++
    if ($4 == "!") invalid[part]++
}

# many(N, ONE, MORE): N with its noun
function many(n, one, more) { return n " " (n == 1 ? one : more) }

function contents(part) {
    if (count[part] == 0) return ends[part] ", empty"
    return ends[part] ", " many(count[part], "vertex", "vertices") ", " many(segments[part] + 0, "segment", "segments") ", " (invalid[part] ? invalid[part] : "none") " invalid"
}

# told(DOUBLE): its decimal, and the bits where that says less than they do: of a zero, an infinity and a NaN
function told(double) {
    return decimal(double) (double ~ /^[08]000000000000000$/ || !is_finite(double) ? " (" double ")" : "")
}

function numbers(name, a, b,    of_a, of_b) {
    of_a = told(a)
    of_b = told(b)
    return name " " of_a (of_a == of_b ? " (" a ")" : "") " and " of_b (of_a == of_b ? " (" b ")" : "")
}

function flag(mark) { return mark == "!" ? "INVALID" : mark == "." ? "valid" : "none (counts as valid)" }

# difference(I, FIELDS): what differs at vertex I; the fields are added up: x 1, y 2, bulge 4, flag 8
function difference(i, fields,    list) {
    if (fields % 2) list = list ", " numbers("x", x["A", i], x["B", i])
    if (int(fields / 2) % 2) list = list ", " numbers("y", y["A", i], y["B", i])
    if (int(fields / 4) % 2) list = list ", " numbers("bulge", bulge["A", i], bulge["B", i])
    if (int(fields / 8) % 2) list = list ", segment " i " " flag(mark["A", i]) " and " flag(mark["B", i])
    return "vertex " i ": " substr(list, 3)
}

END {
    if (listed + unmatched + marks == 0) {
        print "equal: " contents("A")
        exit
    }
    print "A: " ENVIRON["NAME_A"] " (" contents("A") ")"
    print "B: " ENVIRON["NAME_B"] " (" contents("B") ")"
    for (k = 0; k < listed; k++) print difference(place[k], fields[k])
    longer = count["A"] + 0 > count["B"] + 0 ? "A" : "B"
    both = count[longer] - unmatched
    if (unmatched > 0) print many(unmatched, "vertex", "vertices") " only in " longer ": " both (unmatched == 1 ? "" : " to " count[longer] - 1)
    if (marks > 0) print "A is " ends["A"] ", B is " ends["B"]
    if (listed > 0) list = list ", " listed " of " many(both, "vertex", "vertices") " that both have"
    if (unmatched > 0) list = list ", " (listed > 0 ? unmatched : many(unmatched, "vertex", "vertices")) " that only " longer " has"
    if (marks > 0) list = list ", the closed mark"
    print "different: " substr(list, 3)
}
