# Which move an output segment is, and why it is valid or not: a sentence, and a line for each end at which an arc was cut.

part == "answer" {
    connector = $3
    i = $4
    reason = $5
    rule["start"] = $6
    rule["end"] = $7
    from = $8
    to = $9
}

function vertex(i) { return "vertex " i " " point_of(i) }

# the move: a source segment's offset, or what leads from it to the next one's
function move(    whole) {
    whole = "source segment " i ", the " (is_arc(i) ? "arc" : "line") " from " vertex(i) " to " vertex(vertex_after(i)) ","
    if (reason == 12) return whole
    return connector ? "the connector after source segment " i ", at " vertex(vertex_after(i)) "," : "the offset of " whole
}

# the two segments that a connector joins; the last of a closed source is followed by the first
function both() { return "source segments " i " and " vertex_after(i) }

function within_eps() { return "within ε (" decimal(eps) ")" }

function why() {
    if (reason == 1) return "runs the same way as its source"
    if (reason == 2) return "is turned back: of its way, from 0 to 1, the joins cut it to start at " decimal(from) " and to end at " decimal(to) ", and so it does not run forward"
    if (reason == 3) return "has collapsed: the offset uses up the arc's radius, and a straight line stands in for it"
    if (reason == 4) return "is a round corner: an arc around the vertex leads from one offset to the next"
    if (reason == 5) return "is a reversal: the source turns straight back there, and an arc around the vertex leads from one offset to the next"
    if (reason == 6) return "is a meeting: the offsets of " both() " cross there"
    if (reason == 7) return "bridges an inner corner: of " both() " an arc has collapsed, and there is nothing left to cut"
    if (reason == 8) return "bridges an inner corner: the offsets of " both() " do not meet, however far they are carried on"
    if (reason == 9) return "bridges an inner corner: no point tried as the meeting of the offsets of " both() " lies on both of them"
    if (reason == 10) return "bridges a gap: one of " both() ", or its offset, is so small that it has no direction there, " within_eps()
    if (reason == 11) return "bridges a gap: " both() " run in the same direction there, and yet their offsets do not touch, " within_eps()
    if (reason == 12) return "is copied as it is, since the offset is 0"
    if (reason == 13) return "is a side of a pointed corner: two lines lead from one offset to the next, by the point where both offsets, carried on, meet"
    return "has a reason that is not known here"
}

function is_invalid() { return reason == 2 || reason == 3 || (reason >= 7 && reason <= 11) }

# where an arc was cut, at its start or its end
function cut(where) {
    if (rule[where] == 1) return "at the arc's own start, which the point matches " within_eps()
    if (rule[where] == 2) return "at the arc's own end, which the point matches " within_eps()
    if (rule[where] == 3) return "inside its sweep"
    return "by a point let in by the tolerance: it lies past the arc's end by no more than ε (" decimal(eps) ")"
}

END {
    print "segment " segment ": " (is_invalid() ? "INVALID" : "valid") ", reason " reason ": " move() " " why()
    if (rule["start"] > 0) print "its arc was cut at its start " cut("start")
    if (rule["end"] > 0) print "its arc was cut at its end " cut("end")
}
