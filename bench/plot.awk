# Draws the benchmark's counts as SVG: awk -v many=CALL -v foot=TEXT -f plot.awk COUNTS, where a line is call, name and
# instructions, and `many` is the call under whose name one block of many stands. On the left each call is measured by its C
# translation, on a scale that begins at 0; on the right what other libraries do as well stands beside them, on a logarithmic scale.
function grouped(number,   text) {
    text = number
    while (text ~ /[0-9][0-9][0-9][0-9](,|$)/) sub(/[0-9][0-9][0-9](,|$)/, ",&", text)
    return text
}
function log10(x) { return log(x) / log(10) }
function text(x, y, class, anchor, words) {
    gsub(/&/, "\\&amp;", words)
    gsub(/</, "\\&lt;", words)
    printf "<text x=\"%.1f\" y=\"%.1f\" class=\"%s\" text-anchor=\"%s\">%s</text>\n", x, y, class, anchor, words
}
function bar(x, y, width, height, class) {
    printf "<rect x=\"%.1f\" y=\"%.1f\" width=\"%.1f\" height=\"%.1f\" class=\"%s\"/>\n", x, y, width, height, class
}
function line(x1, y1, x2, y2, class) {
    printf "<line x1=\"%.1f\" y1=\"%.1f\" x2=\"%.1f\" y2=\"%.1f\" class=\"%s\"/>\n", x1, y1, x2, y2, class
}
function kind(name) {
    if (name == ours) return "ours"
    if (name == c) return "c"
    return name ~ /AES-NI/ ? "aesni" : "other"
}

# Two bars of the left side: what is the measure, and what is measured by it; with a bound, where it should end at the latest.
function pair(label, y, measured, by, by_label, class, bound,   ratio, inside, verdict, x) {
    ratio = measured / by
    text(left, y, "group", "start", label)
    bar(left, y + 9, unit, 15, class)
    text(left + 7, y + 20.5, "inside", "start", by_label " " grouped(by))
    bar(left, y + 27, unit * ratio, 15, "ours")
    inside = unit * ratio > 75
    text(left + 7 + (inside ? 0 : unit * ratio), y + 38.5, inside ? "inside" : "axis", "start", "ours " grouped(measured))
    x = left + unit * (ratio > 1 ? ratio : 1) + 14
    text(x, y + 39, "value strong", "start", sprintf("%.2f", ratio))
    if (bound == "") return
    verdict = measured <= bound * by ? "met" : "missed"
    line(left + unit * bound, y + 5, left + unit * bound, y + 46, "bound " verdict)
    text(x + 38, y + 39, "value " verdict, "start", "at most " bound ": " verdict)
}
# A group of the right side: everyone who makes the call, whoever takes most first. Gives where the next group begins.
function group(call, y,   i, k, name, width) {
    text(right, y, "group", "start", call)
    for (i = 1; i < makers[call]; i++)
        for (k = i + 1; k <= makers[call]; k++)
            if (count[call, maker[call, k]] > count[call, maker[call, i]]) {
                name = maker[call, i]
                maker[call, i] = maker[call, k]
                maker[call, k] = name
            }
    for (i = 1; i <= makers[call]; i++) {
        y += row
        name = maker[call, i]
        width = decade * log10(count[call, name] / 10)
        bar(scale, y - 11, width, 14, kind(name))
        text(scale - 9, y, name == ours ? "strong" : "", "end",
            name == ours ? "Slipgrease" : name == c ? "the same steps in C" : name)
        text(scale + width + 7, y, name == ours ? "value strong" : "value", "start", grouped(count[call, name]))
        if (name != ours) text(ratios, y, "value", "end", sprintf("%.2f", count[call, ours] / count[call, name]))
    }
    return y + gap
}
function legend(x, y, class, label) {
    bar(x, y - 10, 13, 13, class)
    text(x + 19, y, "", "start", label)
}
BEGIN {
    FS = "\t"; ours = "the library"; c = "the C translation"
    bound["encrypt"] = bound["encrypt_published"] = "1.0"
    bound["encrypt_masked"] = "0.7"
}

{ count[$1, $2] = $3; maker[$1, ++makers[$1]] = $2 }
!seen[$1]++ { call[++calls] = $1 }

END {
    width = 1300; left = 44; unit = 250; right = 664; scale = 910; decade = 60; ratios = 1253; top = 182; row = 18; gap = 38
    end = top
    for (i = 1; i <= calls; i++)
        if (makers[call[i]] > 2 || i <= 3) {
            shared[++groups] = call[i]
            end += row * makers[call[i]] + gap
        }
    end -= gap - 12
    pairs = calls + 2
    if (end < top + pairs * 72 - 20) end = top + pairs * 72 - 20
    height = end + 86
    printf "<svg xmlns=\"http://www.w3.org/2000/svg\" viewBox=\"0 0 %d %d\" width=\"%d\" height=\"%d\">\n",
        width, height, width, height
    print "<style>"
    print "text { font-family: 'DejaVu Sans', Verdana, Helvetica, Arial, sans-serif; font-size: 12px; fill: #24292f }"
    print ".title { font-size: 27px; font-weight: bold } .under { font-size: 14px; fill: #57606a }"
    print ".head { font-size: 17px; font-weight: bold } .group { font-size: 13px; font-weight: bold }"
    print ".strong { font-weight: bold }"
    print ".inside { fill: #ffffff; font-size: 11px } .axis { font-size: 11px; fill: #57606a }"
    print ".group, .value { paint-order: stroke; stroke: #ffffff; stroke-width: 4px; stroke-linejoin: round }"
    print "text.met { fill: #1a7f37 } text.missed { fill: #cf222e }"
    print ".paper { fill: #ffffff } .ours { fill: #0b5cad } .c { fill: #7d8590 } .plain { fill: #6c9bcf }"
    print ".other { fill: #c9903c } .aesni { fill: #5a9a6e }"
    print ".grid { stroke: #d8dee4 } .one { stroke: #57606a } .bound { stroke-width: 2.5 }"
    print "line.met { stroke: #1a7f37 } line.missed { stroke: #cf222e }"
    print "</style>"
    bar(0, 0, width, height, "paper")
    text(left, 44, "title", "start", "Slipgrease: instructions for a key, a block, a step of a key wrap or a packet")
    text(left, 69, "under", "start",
        "AES-256, but for shorter keys; one key or block a call, 256 in encrypt_blocks, 24 steps in key wrap, eleven blocks in a packet; shorter is better")
    for (i = 1; i <= makers["encrypt"]; i++) {
        n = count["encrypt", maker["encrypt", i]]
        if (kind(maker["encrypt", i]) == "aesni" && (least == "" || n < least)) least = n
    }
    if (least != "")
        text(left, 89, "under", "start", "AES-NI is far ahead: with it another library encrypts a block in " least \
            sprintf(" instructions, and ours, which uses none of it, takes %.0f times as many", count["encrypt", ours] / least))

    text(left, 122, "head", "start", "Beside the same steps in C, gcc -O3")
    text(left, 142, "axis", "start", "the C translation is 1; a mark shows the target")
    for (i = 0; i <= 7; i++) {
        line(left + unit * i / 4, top - 20, left + unit * i / 4, end, i == 4 ? "one" : "grid")
        text(left + unit * i / 4, end + 17, "axis", "middle", i / 4)
    }
    between = (end - top + 12) / pairs
    for (i = 1; i <= calls; i++)
        pair(call[i], top + (i - 1) * between, count[call[i], ours], count[call[i], c], "C", "c", bound[call[i]])
    pair("encrypt_published beside encrypt", top + calls * between, count["encrypt_published", ours], count["encrypt", ours],
        "encrypt", "plain", "1.5")
    pair(many ", beside encrypt_published", top + (calls + 1) * between, count[many, ours], count["encrypt_published", ours],
        "encrypt_published", "plain", "0.9")

    text(right, 122, "head", "start", "Beside other libraries")
    legend(right, 142, "ours", "Slipgrease")
    legend(right + 105, 142, "c", "C")
    legend(right + 150, 142, "other", "without AES-NI")
    legend(right + 285, 142, "aesni", "with AES-NI")
    text(ratios, 142, "axis", "end", "ours / it")
    for (i = 1; i <= 5; i++) {
        line(scale + decade * (i - 1), top - 20, scale + decade * (i - 1), end, "grid")
        text(scale + decade * (i - 1), end + 17, "axis", "middle", grouped(10 ^ i))
    }
    text(scale + 2 * decade, end + 35, "axis", "middle", "instructions, on a logarithmic scale")
    y = top
    for (i = 1; i <= groups; i++) y = group(shared[i], y)
    text(left, height - 22, "axis", "start", foot)
    print "</svg>"
}
