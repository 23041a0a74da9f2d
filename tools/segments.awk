# What the program of crates/rawpen prints, line by line as it comes: in decimals, or as it is where `as_bits` says so. A refusal is told in words. The
# settings come as they were given, and the vertices by the file that `notes` names.

BEGIN {
    offset = bits(offset)
    eps = bits(eps)
    if (ratio != "") ratio = bits(ratio)
    segments = 0
}

function say(words) {
    print as_bits ? $0 : words
    fflush()
}

function read_notes(    note, word) {
    while ((getline note < notes) > 0) {
        split(note, word, " ")
        line[v] = word[1]
        source = source word[2] word[3] word[4]
        v++
    }
}

# how many of offset, ε and ratio are in range before the first that is not
function settings_in_range() {
    if (!within(offset, -1000000, 1000000)) return 0
    if (!within(eps, 0.000000001, 0.01)) return 1
    return ratio == "" || within(ratio, 1, 10) ? 3 : 2
}

# the vertex refused is the later one here
function repeats() {
    return "vertices " place - 1 " and " place " are the same point, " point_of(place - 1) \
        (point_of(place - 1) == point_of(place) ? "" : " and " point_of(place)) ": leave one of them out"
}

function refused(    good) {
    good = settings_in_range()
    if (number == 3 && good < 3) {
        v = place - good
        return ": " bad_number()
    }
    v = 0
    read_notes()
    return (place in line ? ", line " line[place] : "") ": " (number == 2 ? "there are more than 4096 vertices: end this drawing, and begin another" : number == 5 ? repeats() : refusal())
}

NF == 6 {
    mark[segments] = $4
    say("segment " segments ": leaves (" decimal($1) ", " decimal($2) "), bulge " decimal($3) ", " $5 " " $6 ($4 == "!" ? ", INVALID" : ""))
    segments++
}

NF == 4 {
    mark[segments] = $4
    say("end: (" decimal($1) ", " decimal($2) ")" (value($3) == 0 ? "" : ", bulge " decimal($3)))
}

NF == 3 {
    ended = 1
    place = $2
    v = 0
    read_notes()
    say(count())
}

NF == 2 {
    ended = 1
    number = $1
    place = $2 + 0
    if (as_bits) say("")
    # what cannot be read was told before
    status = number == 7 ? 2 : 1
    if (number != 7) print "pen: refused, number " number refused() > "/dev/stderr"
}

END {
    if (!ended) {
        print "pen: the program ended early" > "/dev/stderr"
        exit 2
    }
    exit status
}
