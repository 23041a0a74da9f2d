# What in a text is not as rawoffset prints an output: its first fault, to be put after the file's name. 'ended' is 0 where the last line
# has no end. These are words alone: whether a text is an output is for the program of crates/rawsame to say.

BEGIN { split("x y bulge", name, " ") }

# shown(WORD): it may be of any bytes and of any length
function shown(word) {
    gsub(/[^ -~]/, "?", word)
    return "'" (length(word) > 40 ? substr(word, 1, 40) ".." : word) "'"
}

function many(n, one, more) { return n " " (n == 1 ? one : more) }

function carriage() { return "a line ends with LF alone, and this one has a CR: copy the file as it is, or take them out by tr -d '\\r'" }

function blanks() { return "one blank stands between two words, and no other is there" }

# what is wrong with the first line, which is split in `word`
function in_first(line, n) {
    if (line ~ /\r/) return carriage()
    if (n != 3 || word[1] != "0" || (word[3] != "open" && word[3] != "closed"))
        return "it is " shown(line) ", and an output starts with '0 COUNT open' or '0 COUNT closed', as rawoffset prints it without --show"
    if (word[2] !~ /^[0-9]+$/) return "COUNT is " shown(word[2]) ", and it is a number in decimal digits"
    if (word[2] ~ /^0./) return "COUNT is " word[2] ", and no zero is in front of it"
    if (line != "0 " word[2] " " word[3]) return blanks()
    if (length(word[2]) > 5 || word[2] + 0 > 12288) return "COUNT is " word[2] ", and at most 12288 vertices are compared"
    return ""
}

function in_number(name, digits,    i, c) {
    for (i = 1; i <= length(digits); i++) {
        c = substr(digits, i, 1)
        if (c ~ /[0-9a-f]/) continue
        return "digit " i " of " name " is " shown(c) ", and " (c ~ /[A-F]/ ? "a to f are in lower case" : "a digit is 0 to 9 or a to f")
    }
    return name " has " many(length(digits), "digit", "digits") ", and 16 are its bits"
}

# what is wrong with a vertex's line, but for where its mark may stand
function in_row(line,    word, n, i) {
    if (line ~ /\r/) return carriage()
    n = split(line, word, " ")
    if (n != 4) return "it has " many(n, "word", "words") ", and a vertex has four: x, y, bulge and mark"
    for (i = 1; i <= 3; i++) if (length(word[i]) != 16 || word[i] ~ /[^0-9a-f]/) return in_number(name[i], word[i])
    for (i = 1; i <= 3; i++) if (word[i] ~ /^[7f]ff/ && word[i] !~ /^.ff0000000000000$/ && word[i] != "7ff8000000000000")
        return name[i] " is a NaN, " word[i] ", and no output of a job that is done has one"
    if (word[4] !~ /^[-.!]$/) return "the mark is " shown(word[4]) ", and a mark is '.', '!' or '-'"
    if (line != word[1] " " word[2] " " word[3] " " word[4]) return blanks()
    return ""
}

# what is wrong with the mark of vertex i
function in_mark(i,    last) {
    last = open && i == count - 1
    if (last && mark[i] != "-") return "the mark is '" mark[i] "', and no segment leaves the last vertex of an open output: '-'"
    if (!open && count == 1 && mark[i] == "!") return "the mark is '!', and no segment leaves a lone vertex: '.'"
    if (!last && mark[i] == "-") return "the mark is '-', and that is only the last vertex's of an open output"
    return ""
}

NR == 1 {
    first = $0
    first_fault = in_first($0, split($0, word, " "))
    count = word[2] + 0
    open = word[3] == "open"
}

NR > 1 && !at {
    fault = in_row($0)
    if (fault != "") at = NR
    mark[NR - 2] = substr($0, 52)
}

function told(line, words) { return ": line " line ": " words }

function first_wrong(    i) {
    if (NR == 1 && first ~ /^[1-9][0-9]* (0|[1-9][0-9]*)$/)
        return " is the answer of a refused job, number " word[1] " at place " word[2] ": there is no output to compare; ./rawoffset JOB says what to mend in the drawing"
    if (first_fault != "") return told(1, first_fault)
    if (at && at <= count + 1) return told(at, at == NR && !ended ? "the file ends in it: make or copy it anew" : fault)
    if (NR - 1 != count) return told(1, "COUNT is " count ", and " many(NR - 1, "line follows", "lines follow") ": " (NR - 1 < count ? "the file was cut short" : "an output ends before them"))
    for (i = 0; i < count; i++) if (in_mark(i) != "") return told(i + 2, in_mark(i))
    if (!ended) return told(NR, "its line end, LF, is missing: make or copy the file anew")
    return " is not as rawoffset prints an output, and what is wrong with it was not found"
}

END { print first_wrong() }
