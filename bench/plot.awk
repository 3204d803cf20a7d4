# Draws time against words for each family, both axes by doublings: into/FAMILY.svg.

BEGIN {
    LEFT = 70; TOP = 40; WIDE = 480; HIGH = 320
    split("station_match,C by job file,station_lent,C on lent buffers", label, ",")
    split("#c0392b,#7f8c8d,#2c6fbb,#000000", colour, ",")
    split("none,none,6 3,6 3", dash, ",")
}

$1 == "family" { family[++families] = $2; what[$2] = $3 }

$1 == "time" {
    at = ++points[$2]
    words[$2, at] = $3
    for (line = 1; line <= 4; line++) time[$2, at, line] = $(6 + line)
}

function doublings(number) { return log(number) / log(2) }
function across(number) { return LEFT + WIDE * (doublings(number) - 5.5) / 6.5 } # 45 to 4,096 words
function up(number) { return TOP + HIGH * (1 - (doublings(number) - 8) / 11.5) }  # 256 ns to 740 us

function text(x, y, anchor, words) {
    printf "<text x='%.0f' y='%.0f' text-anchor='%s'>%s</text>\n", x, y, anchor, words > file
}

function rule(x1, y1, x2, y2) {
    printf "<line x1='%.0f' y1='%.0f' x2='%.0f' y2='%.0f' stroke='#dddddd'/>\n", x1, y1, x2, y2 > file
}

function axes(    n) {
    for (n = 64; n <= 4096; n *= 2) {
        rule(across(n), TOP, across(n), TOP + HIGH)
        text(across(n), TOP + HIGH + 18, "middle", n)
    }
    for (n = 1000; n <= 512000; n *= 2) {
        rule(LEFT, up(n), LEFT + WIDE, up(n))
        text(LEFT - 6, up(n) + 4, "end", n / 1000)
    }
    text(LEFT + WIDE / 2, TOP + HIGH + 36, "middle", "words")
    text(LEFT - 6, TOP - 8, "end", "microseconds")
}

function curve(name, line,    at, path, y) {
    for (at = 1; at <= points[name]; at++)
        path = path sprintf("%s%.1f,%.1f", at == 1 ? "" : " ", across(words[name, at]), up(time[name, at, line]))
    printf "<polyline points='%s' fill='none' stroke='%s' stroke-width='2' stroke-dasharray='%s'/>\n", path, colour[line], dash[line] > file
    y = TOP + 6 + 18 * line
    printf "<line x1='%d' y1='%d' x2='%d' y2='%d' stroke='%s' stroke-width='2' stroke-dasharray='%s'/>\n", LEFT + 14, y, LEFT + 44, y, colour[line], dash[line] > file
    text(LEFT + 50, y + 4, "start", label[line])
}

END {
    for (i = 1; i <= families; i++) {
        name = family[i]
        file = into "/" name ".svg"
        printf "<svg xmlns='http://www.w3.org/2000/svg' width='%d' height='%d' font-family='sans-serif' font-size='12'>\n", LEFT + WIDE + 20, TOP + HIGH + 50 > file
        print "<rect width='100%' height='100%' fill='white'/>" > file
        text(LEFT + WIDE / 2, 18, "middle", what[name])
        axes()
        for (line = 1; line <= 4; line++) curve(name, line)
        print "</svg>" > file
        close(file)
    }
}
