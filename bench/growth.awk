# Draws the growth lines of the figures as SVG: microseconds per event against the cells of the table, for both sides.

BEGIN {
    width = 820; height = 470
    left = 76; right = 170; top = 78; bottom = 64
    ink = "#222222"; faint = "#dddddd"
    colour["proved"] = "#1b5e9e"; colour["peer"] = "#c4540a"
    name["proved"] = "proved library"; name["peer"] = "plain C peer"
}

/median of/ { repetitions = $5 }

$1 == "growth" {
    points++
    cells[points] = $6
    # the fastest, because other work on the machine can only slow a repetition
    time["proved", points] = $8; middle["proved", points] = $7
    time["peer", points] = $11; middle["peer", points] = $10
    if ($6 > most_cells) most_cells = $6
    if ($7 > most_time) most_time = $7
    if ($10 > most_time) most_time = $10
}

# The step of an axis that gives four to ten marks: 1, 2 or 5 times a power of ten.
function step_for(span,    step) {
    step = 1
    while (step * 10 < span) step *= 10
    while (step >= span) step /= 10
    if (span / step < 4) step /= 2
    if (span / step < 4) step /= 2.5
    return step
}

function up_to_step(number, step,    steps) {
    steps = int(number / step)
    return (steps * step < number ? steps + 1 : steps) * step
}

function across(count) { return left + (width - left - right) * count / end_cells }

function upward(microseconds) { return height - bottom - (height - top - bottom) * microseconds / end_time }

# A whole number with a comma at the thousands.
function grouped(number) {
    return number < 1000 ? number : sprintf("%d,%03d", int(number / 1000), number % 1000)
}

function line(x1, y1, x2, y2, stroke, thickness) {
    printf "<line x1=\"%.1f\" y1=\"%.1f\" x2=\"%.1f\" y2=\"%.1f\" stroke=\"%s\" stroke-width=\"%s\"/>\n", x1, y1, x2, y2, stroke, thickness
}

function text(x, y, anchor, fill, more, words) {
    printf "<text x=\"%.1f\" y=\"%.1f\" text-anchor=\"%s\" fill=\"%s\"%s>%s</text>\n", x, y, anchor, fill, more, words
}

function draw_axes(    mark, step, middle) {
    step = step_for(end_time)
    for (mark = 0; mark <= end_time + step / 2; mark += step) {
        line(left, upward(mark), width - right, upward(mark), mark == 0 ? ink : faint, 1)
        text(left - 8, upward(mark) + 4, "end", ink, "", sprintf("%.4g", mark))
    }
    step = step_for(end_cells)
    for (mark = 0; mark <= end_cells; mark += step) {
        line(across(mark), height - bottom, across(mark), height - bottom + 5, ink, 1)
        text(across(mark), height - bottom + 20, "middle", ink, "", grouped(mark))
    }
    line(left, top, left, height - bottom, ink, 1)
    text((left + width - right) / 2, height - 18, "middle", ink, "", "cells of the table")
    middle = (top + height - bottom) / 2
    text(22, middle, "middle", ink, sprintf(" transform=\"rotate(-90 22 %.1f)\"", middle), "microseconds per event")
}

# The marks differ in shape too, for readers who do not see the colours.
function draw_mark(side, x, y) {
    if (side == "proved") printf "<circle cx=\"%.1f\" cy=\"%.1f\" r=\"4\" fill=\"%s\"/>\n", x, y, colour[side]
    else printf "<rect x=\"%.1f\" y=\"%.1f\" width=\"7\" height=\"7\" fill=\"%s\"/>\n", x - 3.5, y - 3.5, colour[side]
}

function draw_curve(side,    point) {
    printf "<polyline fill=\"none\" stroke=\"%s\" stroke-width=\"2\" points=\"", colour[side]
    for (point = 1; point <= points; point++) printf "%.1f,%.1f ", across(cells[point]), upward(time[side, point])
    print "\"/>"
    for (point = 1; point <= points; point++) {
        line(across(cells[point]), upward(time[side, point]), across(cells[point]), upward(middle[side, point]), colour[side], 1)
        draw_mark(side, across(cells[point]), upward(time[side, point]))
    }
}

function draw_name(side, y) {
    text(width - right + 12, y, "start", colour[side], " font-weight=\"bold\"", name[side])
    text(width - right + 12, y + 17, "start", colour[side], "", sprintf("%.2f µs at %s cells", time[side, points], grouped(cells[points])))
}

# The names stand at the ends of the curves, the lower one kept clear of the upper.
function draw_names(    upper, lower, y) {
    upper = time["proved", points] >= time["peer", points] ? "proved" : "peer"
    lower = upper == "proved" ? "peer" : "proved"
    y = upward(time[upper, points])
    draw_name(upper, y)
    draw_name(lower, upward(time[lower, points]) < y + 40 ? y + 40 : upward(time[lower, points]))
}

END {
    if (points == 0) {
        print "growth.awk: no growth lines" > "/dev/stderr"
        exit 1
    }
    end_cells = up_to_step(most_cells, step_for(most_cells))
    end_time = up_to_step(most_time, step_for(most_time))
    printf "<svg xmlns=\"http://www.w3.org/2000/svg\" viewBox=\"0 0 %d %d\" width=\"%d\" height=\"%d\" role=\"img\"", width, height, width, height
    print " font-family=\"sans-serif\" font-size=\"13\">"
    print "<title>Time of apply per event against the length of the table, proved library and plain C peer</title>"
    printf "<rect width=\"%d\" height=\"%d\" fill=\"#ffffff\"/>\n", width, height
    text(left, 30, "start", ink, " font-size=\"17\" font-weight=\"bold\"", "Apply looks over the whole table at every event")
    text(left, 52, "start", ink, "", sprintf("The fastest of %d repetitions; bars up to the median; ran %s", repetitions, how))
    draw_axes()
    draw_curve("peer")
    draw_curve("proved")
    draw_names()
    print "</svg>"
}
