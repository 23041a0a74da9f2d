# The picture of a job and its answer, as SVG on standard output; NAME in the environment is its title. The source is
# grey, the offset blue, an invalid segment red and dashed; a refused job shows its source and the refusal. One
# drawing unit is 'scale' pixels, and y is turned, since it runs down in SVG. A drawing of many vertices is made
# larger, with lines, dots and numbers of half the size ('pen').

# some awks have no square root; 0 where there is none or x is infinite
function root(x,    k, y, i) {
    if (!(x > 0 && x <= 1.7976931348623157e308)) return 0
    k = 1
    while (x >= 4) { x /= 4; k *= 2 }
    while (x < 1) { x *= 4; k /= 2 }
    y = (x + 1) / 2
    for (i = 0; i < 6; i++) y = (y + x / y) / 2
    return k * y
}

function abs(x) { return x < 0 ? -x : x }

# the squares of very small numbers would be 0: those are made larger first
function distance(x1, y1, x2, y2,    dx, dy, k) {
    dx = x2 - x1
    dy = y2 - y1
    k = abs(dx) < 1e-100 && abs(dy) < 1e-100 ? 1e200 : 1
    dx *= k
    dy *= k
    return root(dx * dx + dy * dy) / k
}

function straight(x1, y1, x2, y2, b) { return abs(b) < 0.00000001 || (x1 == x2 && y1 == y2) }

function radius(x1, y1, x2, y2, b) { return distance(x1, y1, x2, y2) * (b * b + 1) / (4 * abs(b)) }

# ---- the box

function grow(x, y) {
    if (!boxed || x < min_x) min_x = x
    if (!boxed || x > max_x) max_x = x
    if (!boxed || y < min_y) min_y = y
    if (!boxed || y > max_y) max_y = y
    boxed = 1
}

# a point of the whole circle is on the arc where it lies right of the chord and the arc runs counterclockwise, or
# left of it and clockwise
function grow_if_on_arc(x, y, x1, y1, x2, y2, b) {
    if (((x2 - x1) * (y - y1) - (y2 - y1) * (x - x1)) * b <= 0) grow(x, y)
}

function grow_segment(x1, y1, x2, y2, b,    r, m, cx, cy) {
    grow(x1, y1)
    grow(x2, y2)
    if (straight(x1, y1, x2, y2, b)) return
    r = radius(x1, y1, x2, y2, b)
    m = (1 - b * b) / (4 * b)
    cx = x1 + (x2 - x1) / 2 - (y2 - y1) * m
    cy = y1 + (y2 - y1) / 2 + (x2 - x1) * m
    grow_if_on_arc(cx - r, cy, x1, y1, x2, y2, b)
    grow_if_on_arc(cx + r, cy, x1, y1, x2, y2, b)
    grow_if_on_arc(cx, cy - r, x1, y1, x2, y2, b)
    grow_if_on_arc(cx, cy + r, x1, y1, x2, y2, b)
}

# ---- pixels

function px(n,    s) {
    s = sprintf("%.2f", n)
    sub(/0+$/, "", s)
    sub(/\.$/, "", s)
    return s == "-0" ? "0" : s
}

function across(x) { return left + (x - min_x) * scale }
function down(y) { return top + (max_y - y) * scale }
function at(x, y) { return px(across(x)) " " px(down(y)) }

# stroke: a segment from the current point of a path. An arc that goes nearly all the way round is drawn as four: its
# ends may fall on one point, between which SVG draws nothing, and half a circle goes a pixel or two astray where its
# radius is rounded.
function stroke(x1, y1, x2, y2, b) {
    if (straight(x1, y1, x2, y2, b)) return " L" at(x2, y2)
    return arcs(x1, y1, x2, y2, b, abs(b) > 10 ? 2 : 0)
}

# arcs: an arc, halved so many times
function arcs(x1, y1, x2, y2, b, times,    mx, my, r) {
    if (times > 0) {
        mx = middle_x(x1, y1, x2, y2, b)
        my = middle_y(x1, y1, x2, y2, b)
        b = b / (1 + root(1 + b * b))
        return arcs(x1, y1, mx, my, b, times - 1) arcs(mx, my, x2, y2, b, times - 1)
    }
    r = px(radius(x1, y1, x2, y2, b) * scale)
    return " A" r " " r " 0 " (abs(b) > 1 ? 1 : 0) " " (b < 0 ? 1 : 0) " " at(x2, y2)
}

# the middle of a segment
function middle_x(x1, y1, x2, y2, b) { return x1 + (x2 - x1) / 2 + (y2 - y1) * b / 2 }
function middle_y(x1, y1, x2, y2, b) { return y1 + (y2 - y1) / 2 - (x2 - x1) * b / 2 }

function words(x, y, style, text) { printf "<text x=\"%s\" y=\"%s\"%s>%s</text>\n", px(x), px(y), style, text }

function dot(x, y, r) { printf "<circle cx=\"%s\" cy=\"%s\" r=\"%s\"/>\n", px(across(x)), px(down(y)), px(r) }

# number_of: a segment's number beside its middle, on the side away from the source
function number_of(i,    j, mx, my, l, side) {
    j = (i + 1) % place
    l = distance(ox[i], oy[i], ox[j], oy[j])
    if (l == 0) return
    side = (value(offset) < 0 ? -11 : 11) * pen
    mx = across(middle_x(ox[i], oy[i], ox[j], oy[j], ob[i])) - (oy[j] - oy[i]) / l * side
    my = down(middle_y(ox[i], oy[i], ox[j], oy[j], ob[i])) - (ox[j] - ox[i]) / l * side
    words(mx, my + 4 * pen, mark[i] == "!" ? " fill=\"#c62828\" font-weight=\"bold\"" : "", i)
}

# the way in which the source runs: an arrow at a quarter of its first segment
function arrow(    hx, hy, b, l, ax, ay, mx, my) {
    hx = middle_x(sx[0], sy[0], sx[1], sy[1], sb[0])
    hy = middle_y(sx[0], sy[0], sx[1], sy[1], sb[0])
    b = sb[0] / (1 + root(1 + sb[0] * sb[0]))
    l = distance(sx[0], sy[0], hx, hy)
    if (l == 0) return
    ax = (hx - sx[0]) / l * pen
    ay = (sy[0] - hy) / l * pen
    mx = across(middle_x(sx[0], sy[0], hx, hy, b))
    my = down(middle_y(sx[0], sy[0], hx, hy, b))
    printf "<path d=\"M%s %s L%s %s L%s %s Z\" fill=\"#888888\"/>\n", px(mx + 7 * ax), px(my + 7 * ay), \
        px(mx - 5 * ax - 5 * ay), px(my - 5 * ay + 5 * ax), px(mx - 5 * ax + 5 * ay), px(my - 5 * ay - 5 * ax)
}

# ---- what is drawn

# the source can be drawn where it has a vertex and its numbers are no NaN and at most 1e30 in size: their squares are finite
function take_source(    i) {
    if (v == 0 || number == 7) return 0
    for (i = 0; i < v; i++) {
        if (!within(x_of(i), -1e30, 1e30) || !within(y_of(i), -1e30, 1e30) || !within(bulge_of(i), -1e30, 1e30)) return 0
        sx[i] = value(x_of(i))
        sy[i] = value(y_of(i))
        sb[i] = value(bulge_of(i))
    }
    return 1
}

function take_answer(    i) {
    drawn = number == 0 ? place : 0
    for (i = 0; i < drawn; i++) {
        ox[i] = value(out_x[i])
        oy[i] = value(out_y[i])
        ob[i] = value(out_bulge[i])
    }
}

# a width or height by which the scale goes; by a smaller one it would be infinite
function is_extent(d) { return d >= 1e-300 }

function measure(    i) {
    grow(sx[0], sy[0])
    for (i = 0; i + 1 < v; i++) grow_segment(sx[i], sy[i], sx[i + 1], sy[i + 1], sb[i])
    if (closed && v > 1) grow_segment(sx[v - 1], sy[v - 1], sx[0], sy[0], sb[v - 1])
    for (i = 0; i < drawn; i++)
        if (mark[i] != "-") grow_segment(ox[i], oy[i], ox[(i + 1) % drawn], oy[(i + 1) % drawn], ob[i])
    pen = v > 100 || drawn > 100 ? 0.5 : 1
    scale = 0
    if (is_extent(max_x - min_x)) scale = 560 / pen / (max_x - min_x)
    if (is_extent(max_y - min_y) && (scale == 0 || (max_y - min_y) * scale > 400 / pen)) scale = 400 / pen / (max_y - min_y)
    drawing_width = (max_x - min_x) * scale
    drawing_height = (max_y - min_y) * scale
}

function draw_source(    i, d) {
    d = "M" at(sx[0], sy[0])
    for (i = 0; i + 1 < v; i++) d = d stroke(sx[i], sy[i], sx[i + 1], sy[i + 1], sb[i])
    if (closed && v > 1) d = d stroke(sx[v - 1], sy[v - 1], sx[0], sy[0], sb[v - 1]) " Z"
    printf "<path d=\"%s\" stroke=\"#888888\" stroke-width=\"%s\" fill=\"%s\"/>\n", d, px(2 * pen), closed ? "#f5f5f5" : "none"
    if (v > 1) arrow()
    print "<g fill=\"#888888\">"
    for (i = 0; i < v; i++) dot(sx[i], sy[i], 3 * pen)
    print "</g>"
}

# draw_segments(INVALID, STYLE): the valid segments or the invalid ones, those that follow each other in one stroke
function draw_segments(invalid, style,    i, j, d, drawing) {
    for (i = 0; i < drawn; i++) {
        if (mark[i] == "-" || (mark[i] == "!") != invalid) { drawing = 0; continue }
        j = (i + 1) % drawn
        if (!drawing) d = d (d == "" ? "M" : " M") at(ox[i], oy[i])
        d = d stroke(ox[i], oy[i], ox[j], oy[j], ob[i])
        drawing = 1
    }
    if (d != "") printf "<path d=\"%s\" %s stroke-linejoin=\"round\" fill=\"none\"/>\n", d, style
}

function valid_style(k) { return "stroke=\"#1565c0\" stroke-width=\"" px(2.5 * k) "\"" }
function invalid_style(k) { return "stroke=\"#c62828\" stroke-width=\"" px(3 * k) "\" stroke-dasharray=\"" px(8 * k) " " px(5 * k) "\"" }

function draw_offset(    i) {
    draw_segments(0, valid_style(pen))
    print "<g fill=\"#1565c0\">"
    for (i = 0; i < drawn; i++) dot(ox[i], oy[i], 3.5 * pen)
    print "</g>"
    draw_segments(1, invalid_style(pen))
    print "<g fill=\"#1565c0\" font-size=\"" px(11 * pen) "\" text-anchor=\"middle\">"
    for (i = 0; i < drawn; i++) if (mark[i] == "!" || (mark[i] == "." && drawn <= 100)) number_of(i)
    print "</g>"
}

# the vertex that a refusal names
function draw_place(    x, y) {
    if ((number != 3 && number != 5) || place >= v) return
    x = across(sx[place])
    y = down(sy[place])
    printf "<circle cx=\"%s\" cy=\"%s\" r=\"8\" fill=\"none\" stroke=\"#c62828\" stroke-width=\"2.5\"/>\n", px(x), px(y)
    words(x + (x < wide / 2 ? 13 : -13), y - 10, " fill=\"#c62828\" font-weight=\"bold\" text-anchor=\"" (x < wide / 2 ? "start" : "end") "\"", \
        number == 5 ? "vertices " place " and " after_place() : "vertex " place)
}

function sample(x, style, text) {
    printf "<path d=\"M%s %s h26\" %s/>\n", px(x), px(high - 20), style
    words(x + 32, high - 16, "", text)
}

function draw_legend() {
    sample(24, "stroke=\"#888888\" stroke-width=\"2\"", "source")
    if (drawn > 0) sample(124, valid_style(1), "offset")
    if (has_invalid()) sample(218, invalid_style(1), "invalid segment")
}

function has_invalid(    i) {
    for (i = 0; i < drawn; i++) if (mark[i] == "!") return 1
    return 0
}

# say: a text under the title, broken at blanks
function say(style, text,    n, word, k, line) {
    n = split(text, word, " ")
    for (k = 1; k <= n; k++) {
        if (line != "" && length(line word[k]) > 88) { said[++lines] = line; styles[lines] = style; line = "" }
        line = line (line == "" ? "" : " ") word[k]
    }
    said[++lines] = line
    styles[lines] = style
}

function escape(s) {
    gsub(/&/, "\\&amp;", s)
    gsub(/</, "\\&lt;", s)
    gsub(/>/, "\\&gt;", s)
    return s
}

END {
    title = escape(ENVIRON["NAME"])
    drawable = take_source()
    take_answer()
    if (drawable) measure()
    say("", "offset " decimal(offset) (decimal(offset) ~ /^-?(0|nan)$/ ? "" : decimal(offset) ~ /^-/ ? " (to the right)" : " (to the left)") \
        ", ε " decimal(eps) (ratio == "" ? "" : ", ratio " decimal(ratio)) "; the source is " (closed ? "closed" : "open") " and has " v (v == 1 ? " vertex" : " vertices"))
    if (number == 0) say(has_invalid() ? " fill=\"#c62828\"" : " fill=\"#1565c0\"", "answer: " count())
    else say(" fill=\"#c62828\"", "refused, number " number ": " refusal())
    if (!drawable) say("", v == 0 ? "there is nothing to draw" : "its numbers cannot be drawn")
    wide = drawing_width + 80
    if (wide < 600) wide = 600
    left = (wide - drawing_width) / 2
    top = 36 + 18 * lines + 34
    high = drawable ? top + drawing_height + 66 : top - 20
    printf "<svg xmlns=\"http://www.w3.org/2000/svg\" width=\"%s\" height=\"%s\" viewBox=\"0 0 %s %s\" font-family=\"sans-serif\" font-size=\"12\" fill=\"#444444\">\n", \
        px(wide), px(high), px(wide), px(high)
    print "<!-- drawn by rawoffset -->"
    print "<title>" title "</title>"
    print "<rect width=\"100%\" height=\"100%\" fill=\"#ffffff\"/>"
    words(24, 30, " font-size=\"16\" font-weight=\"bold\"", title)
    for (k = 1; k <= lines; k++) words(24, 34 + 18 * k, styles[k], said[k])
    if (drawable) {
        draw_source()
        if (drawn > 0) draw_offset()
        draw_place()
        draw_legend()
    }
    print "</svg>"
}
