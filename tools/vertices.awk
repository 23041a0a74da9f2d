# Vertices in text, as they come: first the packed head of crates/pen_reply, then each vertex, as octal escapes, a line each, at once. The file that `notes` names
# gets a line for each vertex: the number of its line, and its numbers as doubles. What cannot be read is told with its line, and a byte more is sent: a
# vertex that is cut short, so that the program does not take the drawing for ended.

function tell(why) { printf "pen: %s\n", why > "/dev/stderr" }

function fail(why) {
    tell("line " NR ": " why)
    print "\\000"
    exit
}

function setting(word,    double) {
    double = bits(word)
    if (double == "") {
        tell("'" word "' is not a number")
        exit
    }
    return double
}

function number(word,    double) {
    double = bits(word)
    if (double == "") fail("'" word "' is not a number")
    return double
}

BEGIN {
    print escaped((ratio == "" ? "00" : "01") setting(offset) setting(eps) (ratio == "" ? bits("0") : setting(ratio)))
    fflush()
}

{ sub(/\r$/, "") }

/^[ \t]*(#|$)/ { next }

$1 ~ /^[A-Za-z_]/ && bits($1) == "" { fail("unknown word '" $1 "': a line has a vertex, and the drawing is open") }

NF != 2 && NF != 3 { fail("a vertex is 'x y' or 'x y bulge', and this line has " NF (NF == 1 ? " number" : " numbers")) }

{
    numbers = number($1) " " number($2) " " (NF == 3 ? number($3) : bits("0"))
    print NR, numbers > notes
    fflush(notes)
    gsub(/ /, "", numbers)
    print escaped(numbers)
    fflush()
}
