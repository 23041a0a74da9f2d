# A done answer as a table in decimals, with the origin of each segment.

function put(row, column, word) {
    cell[row, column] = word
    if (length(word) > width[column]) width[column] = length(word)
}

END {
    put(-1, 0, "vertex")
    put(-1, 1, "x")
    put(-1, 2, "y")
    put(-1, 3, "bulge")
    put(-1, 4, "origin")
    for (i = 0; i < place; i++) {
        put(i, 0, i)
        put(i, 1, decimal(out_x[i]))
        put(i, 2, decimal(out_y[i]))
        put(i, 3, decimal(out_bulge[i]))
        put(i, 4, i in origin ? origin[i] : "-")
    }
    for (i = place > 0 ? -1 : 0; i < place; i++) {
        for (k = 0; k < 4; k++) printf "%" width[k] "s  ", cell[i, k]
        printf "%-" width[4] "s  ", cell[i, 4]
        print i < 0 ? "segment" : mark[i] == "!" ? "! invalid" : mark[i]
    }
    print count()
}
