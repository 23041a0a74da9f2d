# doubles.txt, held to tools/doubles.awk: a line for each entry that is not met, and last the count of entries.
function meet(what, got, wanted) {
    entries++
    if (got != wanted "") print FILENAME ":" FNR ": " what " gives '" got "', not '" wanted "'"
}

/^(#|$)/ { next }
$1 == "reads" { meet("bits of " $3, bits($3), $2); next }
$1 == "refuses" { meet("bits of " $2, bits($2), ""); next }
{
    meet("decimal of " $1, decimal($1) "", $2)
    meet("bits of " $2, bits($2), $1)
}
END { print entries }
