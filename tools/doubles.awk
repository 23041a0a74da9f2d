# Doubles and decimals, for any awk: no bit operations, no powers, no integers over 53 bits. A double is held as
# its 16 hexadecimal digits. Halving, doubling and taking a whole part away are exact; decimals are read and
# written by the C library, which rounds to nearest.

# hex(DIGITS): the number that at most 13 hexadecimal digits stand for
function hex(digits,    i, n) {
    n = 0
    for (i = 1; i <= length(digits); i++) n = 16 * n + index("0123456789abcdef", substr(digits, i, 1)) - 1
    return n
}

# bits(WORD): the double nearest to a decimal, or nothing where WORD is no number. Leading zeros go first:
# some awks read 010 as eight.
function bits(word,    negative, x, e, i, digits, part) {
    if (word == "nan") return "7ff8000000000000"
    if (word == "inf") return "7ff0000000000000"
    if (word == "-inf") return "fff0000000000000"
    if (word !~ /^[+-]?([0-9]+\.?[0-9]*|\.[0-9]+)([eE][+-]?[0-9]+)?$/) return ""
    negative = word ~ /^-/ ? 32768 : 0
    sub(/^[+-]?0*/, "", word)
    if (word !~ /^[0-9]/) word = "0" word
    x = word + 0
    if (x == 0) return sprintf("%04x", negative) "000000000000"
    if (x > 1.7976931348623157e308) return sprintf("%04x", negative + 32752) "000000000000"
    e = 1023
    while (x >= 65536) { x /= 65536; e += 16 }
    while (x >= 2) { x /= 2; e++ }
    while (x < 1 && e > 1) { x *= 2; e-- }
    if (x < 1) e = 0
    else x -= 1
    x *= 16
    part = int(x)
    digits = sprintf("%04x", negative + 16 * e + part)
    for (i = 0; i < 3; i++) {
        x = (x - part) * 65536
        part = int(x)
        digits = digits sprintf("%04x", part)
    }
    return digits
}

function is_finite(double) { return hex(substr(double, 1, 3)) % 2048 != 2047 }

# size(DOUBLE): its number without the sign; the double is finite
function size(double,    e, x) {
    e = hex(substr(double, 1, 3)) % 2048
    x = hex(substr(double, 4))
    if (e > 0) x += 4503599627370496
    else e = 1
    if (x == 0) return 0
    while (e >= 1075 + 16) { x *= 65536; e -= 16 }
    while (e > 1075) { x *= 2; e-- }
    while (e <= 1075 - 16) { x /= 65536; e += 16 }
    while (e < 1075) { x /= 2; e++ }
    return x
}

# value(DOUBLE): its number; the double is finite
function value(double) { return hex(substr(double, 1, 1)) < 8 ? size(double) : -size(double) }

# decimal(DOUBLE): the shortest decimal whose nearest double it is. The nearest decimal of n + 1 digits is tried, n
# rising; below a power of two doubles lie closer, so there the next decimal up may do where the nearest fails. Where doubles
# have all their bits, one of at most 15 digits that does is the nearest of 15, and its zeros at the end go.
function decimal(double,    sign, x, n, s) {
    sign = hex(substr(double, 1, 1)) < 8 ? "" : "-"
    if (!is_finite(double)) return substr(double, 4) ~ /[^0]/ ? "nan" : sign "inf"
    x = size(double)
    if (x == 0) return sign "0"
    for (n = x < 1e-290 ? 0 : 14; n <= 16; n++) {
        s = sprintf("%." n "e", x)
        if (s + 0 == x) break
        if (substr(double, 4) ~ /[^0]/) continue
        s = next_up(s)
        if (s + 0 == x) break
    }
    return sign plain(s)
}

# next_up(S): S, as d.ddde+dd, with one more in its last digit
function next_up(s,    i, d) {
    for (i = index(s, "e") - 1; i > 0; i--) {
        d = substr(s, i, 1)
        if (d == ".") continue
        if (d != "9") return substr(s, 1, i - 1) (d + 1) substr(s, i + 1)
        s = substr(s, 1, i - 1) "0" substr(s, i + 1)
    }
    return "1" s
}

# plain(S): d.ddde+dd written out, with an exponent only below 1e-6 and from 1e21 on
function plain(s,    e, d) {
    e = substr(s, index(s, "e") + 1) + 0
    d = substr(s, 1, index(s, "e") - 1)
    sub(/\./, "", d)
    sub(/0+$/, "", d)
    if (e < -6 || e > 20) return substr(d, 1, 1) (length(d) > 1 ? "." substr(d, 2) : "") "e" e
    for (; e < 0; e++) d = "0" d
    while (length(d) < e + 1) d = d "0"
    return substr(d, 1, e + 1) (length(d) > e + 1 ? "." substr(d, e + 2) : "")
}

# escaped(DIGITS): the bytes of hexadecimal digits as octal escapes, for printf
function escaped(digits,    i, s) {
    for (i = 1; i < length(digits); i += 2) s = s sprintf("\\%03o", hex(substr(digits, i, 2)))
    return s
}
