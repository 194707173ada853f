# drawing.awk, after counts.awk: draws the cost of a check and of an event against the number of circuits, library and plain C, as SVG. Both
# scales go by powers, so that a straight line is a power of the number of circuits.
BEGIN {
    panels = split("check, every part present|one event alone, mixed|mixed list, an event", drawn, "|")
    split("One check|One event alone|One event of a list", title, "|")
    left = 84; apart = 282; width = 270; inset = 62; ceiling = 92; floor = 372
    colour["library"] = "#0b5cad"; colour["plain"] = "#b3500c"
    dashes["plain"] = "7 4"; dashes["worst"] = "2 4"
    worst = "check, references made against the filter"
}

function power(n) { return log(n) / log(10) }

function across(p, circuits) {
    return left + (p - 1) * apart + inset + (width - 2 * inset) * (power(circuits) - power(size[1])) / (power(size[sizes]) - power(size[1]))
}

function up(n) { return floor - (floor - ceiling) * (power(n) - lowest) / (highest - lowest) }

function text(x, y, anchor, fill, words) {
    printf "<text x=\"%.1f\" y=\"%.1f\" text-anchor=\"%s\" fill=\"%s\">%s</text>\n", x, y, anchor, fill, words
}

# The powers of ten that the costs drawn lie between, with room for a label above the greatest.
function find_scale(   p, i, least, most) {
    least = cost(drawn[1], size[1], "library")
    for (p = 1; p <= panels; p++)
        for (i = 1; i <= sizes; i++) {
            if (cost(drawn[p], size[i], "library") < least) least = cost(drawn[p], size[i], "library")
            if (cost(drawn[p], size[i], "plain") > most) most = cost(drawn[p], size[i], "plain")
        }
    lowest = int(power(least))
    highest = power(most) + 0.35
}

function draw_panel(p,   i, n) {
    printf "<rect x=\"%d\" y=\"%d\" width=\"%d\" height=\"%d\" fill=\"#f6f7f8\"/>\n", left + (p - 1) * apart, ceiling, width, floor - ceiling
    printf "<g font-size=\"15\" font-weight=\"bold\">\n"
    text(left + (p - 1) * apart + width / 2, ceiling - 12, "middle", "#222", title[p])
    print "</g>"
    for (n = 10 ^ lowest; power(n) <= highest; n *= 10)
        printf "<path d=\"M%d %.1fh%d\" stroke=\"#d5d8db\"/>\n", left + (p - 1) * apart, up(n), width
    for (i = 1; i <= sizes; i++) {
        printf "<path d=\"M%.1f %dv6\" stroke=\"#666\"/>\n", across(p, size[i]), floor
        text(across(p, size[i]), floor + 21, "middle", "#444", size[i])
    }
}

# A line through the costs of one side in a row of the table, with a point at each, and a figure where there is room, from the size `figured` on:
# plain C's to the left above, the library's to the right below.
function draw_line(p, row, side, style, figured,   i, points, x, y) {
    for (i = 1; i <= sizes; i++) points = points sprintf(" %.1f,%.1f", across(p, size[i]), up(cost(row, size[i], side)))
    printf "<polyline points=\"%s\" fill=\"none\" stroke=\"%s\" stroke-width=\"2.5\" stroke-dasharray=\"%s\"/>\n", \
        substr(points, 2), colour[side], style
    for (i = 1; i <= sizes; i++) {
        x = across(p, size[i]); y = up(cost(row, size[i], side))
        printf "<circle cx=\"%.1f\" cy=\"%.1f\" r=\"4\" fill=\"%s\"/>\n", x, y, colour[side]
        if (i < figured) continue
        if (side == "plain") text(x - 7, y - 6, "end", colour[side], thousands(cost(row, size[i], side)))
        else text(x + 6, y + 15, "start", colour[side], thousands(cost(row, size[i], side)))
    }
}

function draw_key(x, side, style, words) {
    printf "<path d=\"M%d 46h34\" stroke=\"%s\" stroke-width=\"2.5\" stroke-dasharray=\"%s\"/>\n", x, colour[side], style
    text(x + 42, 50, "start", colour[side], words)
}

END {
    find_scale()
    printf "<svg xmlns=\"http://www.w3.org/2000/svg\" viewBox=\"0 0 %d 430\" font-family=\"sans-serif\" font-size=\"12\">\n", \
        left + (panels - 1) * apart + width + 14
    print "<title>Instructions of a check and of an event against the number of circuits, library and plain C</title>"
    print "<rect width=\"100%\" height=\"100%\" fill=\"white\"/>"
    print "<g font-size=\"16\">"
    text(left, 28, "start", "#222", "Instructions: less is better. Each line of the grid is ten times the one below it.")
    print "</g>"
    draw_key(left, "library", "none", "library")
    draw_key(left + 110, "plain", dashes["plain"], "plain C")
    draw_key(left + 220, "library", dashes["worst"], "library, where the references are chosen against it")
    for (p = 1; p <= panels; p++) {
        draw_panel(p)
        draw_line(p, drawn[p], "plain", dashes["plain"], 1)
        draw_line(p, drawn[p], "library", "none", 1)
    }
    draw_line(1, worst, "library", dashes["worst"], 2)
    for (n = 10 ^ lowest; power(n) <= highest; n *= 10) text(left - 8, up(n) + 4, "end", "#444", thousands(n))
    text(left + (panels * apart - apart + width) / 2, floor + 46, "middle", "#444", "circuits of the route")
    print "</svg>"
}
