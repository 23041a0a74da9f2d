# A job in text, to the bytes of the packed job as octal escapes; where it has a ratio, that stands before them. What cannot be read is
# told with its line.

function fail(why) {
    printf "pack: line %d: %s\n", NR, why > "/dev/stderr"
    failed = 1
    exit 2
}

function once(word) {
    if (word in given) fail("a second '" word "'; the first is on line " given[word])
    given[word] = NR
}

function number(word,    double) {
    double = bits(word)
    if (double == "") fail("'" word "' is not a number")
    return double
}

BEGIN { setting["offset"] = bits("0"); setting["eps"] = bits("1e-5"); setting["ratio"] = "" }

{ sub(/\r$/, "") }

/^[ \t]*(#|$)/ { next }

{ lines++ }

$1 == "open" || $1 == "closed" {
    if (NF > 1) fail("'" $1 "' stands alone on its line")
    once($1)
    other = $1 == "open" ? "closed" : "open"
    if (other in given) fail("'" $1 "', and line " given[other] " says '" other "'")
    next
}

$1 == "offset" || $1 == "eps" || $1 == "ratio" {
    if (NF != 2) fail("'" $1 "' takes one number")
    once($1)
    setting[$1] = number($2)
    next
}

$1 ~ /^[A-Za-z_]/ && bits($1) == "" { fail("unknown word '" $1 "'") }

NF != 2 && NF != 3 { fail("a vertex is 'x y' or 'x y bulge', and this line has " NF (NF == 1 ? " number" : " numbers")) }

{
    vertices++
    if (vertices > 512) fail("more than 512 vertices")
    source = source escaped(number($1) number($2) (NF == 3 ? number($3) : bits("0")))
}

END {
    if (failed) exit 2
    if (!lines) {
        print "pack: the text has no line of a job" > "/dev/stderr"
        exit 2
    }
    print escaped(setting["ratio"] sprintf("%04x", ("closed" in given) * 32768 + vertices) setting["offset"] setting["eps"]) source
}
