# Prints the benchmark's table of what was timed and counted: awk -v many=CALL -v stepwise=TEXT -v packets=COUNT -f table.awk
# kind=times FILE kind=off FILE kind=counts FILE kind=desk FILE kind=desk-counts FILE. Lines of times are call, name, nanoseconds
# and spread in per cent; `off` are those where AES-NI was hidden, with the library timed again beside them; counts are call, name
# and instructions. `desk` are times of the desk tool and of the calls on a stream of so many packets. `many` is the call under
# whose name one block of many stands, and `stepwise` what is behind the name of a call of which one step stands there.
function grouped(number,   text) {
    if (number == "") return "-"
    text = number
    while (text ~ /[0-9][0-9][0-9][0-9](,|$)/) sub(/[0-9][0-9][0-9](,|$)/, ",&", text)
    return text
}
function ratio(a, b) { return a == "" || b == "" ? "-" : sprintf("%.2f", a / b) }
function greater(a, b) { return a + 0 > b + 0 ? a : b }
function nanoseconds(number) { return number == "" ? "-" : sprintf("%.0f", number) }
function percent(number) { return number == "" ? "-" : sprintf("%.0f %%", number) }
function target(text, bound, instructions, others,   verdict) {
    verdict = instructions <= bound * others ? "met" : "missed"
    if (instructions == "" || others == "") verdict = "not counted"
    printf "%-60s at most %6s  %6s  %s\n", text, others == 1 ? grouped(bound) : bound,
        others == 1 ? grouped(instructions) : ratio(instructions, others), verdict
}
# What a masked call takes at most at the record of one offset, and how much more at another.
function records(n, most,   at_another) {
    at_another = n ", another record"
    target(n ", instructions", most, count[n, ours], 1)
    target(at_another ", instructions more", 3500,
        count[n, ours] == "" || count[at_another, ours] == "" ? "" : count[at_another, ours] - count[n, ours], 1)
}
function heads(one, other) {
    printf "%-40s %19s %31s\n", "", "nanoseconds", "instructions"
    printf "%-40s %8s %8s %6s %7s %9s %9s %6s\n", "call", one, other, "ratio", "spread", one, other, "ratio"
}
function row(n, one, other) {
    printf "%-40s %8s %8s %6s %7s %9s %9s %6s\n", n, nanoseconds(time[n, one]), nanoseconds(time[n, other]),
        ratio(time[n, one], time[n, other]), percent(greater(spread[n, one], spread[n, other])),
        grouped(count[n, one]), grouped(count[n, other]), ratio(count[n, one], count[n, other])
}
BEGIN { FS = "\t"; ours = "the library"; c = "the C translation"; tool = "the desk tool"; through = "the calls" }

kind == "desk" { time[$1, $2] = $3; spread[$1, $2] = $4; next }
kind == "desk-counts" { count[$1, $2] = $3; next }

kind == "counts" { count[$1, $2] = $3; if (!(($1, $2) in time)) time[$1, $2] = "" }
kind == "times" || kind == "off" {
    if (kind == "off" && $2 == ours) { again[$1] = $3; next }
    time[$1, $2] = $3
    spread[$1, $2] = $4
    own[$1, $2] = kind == "off" ? again[$1] : time[$1, ours]
}
!($1 in seen) { seen[$1] = 1; call[++calls] = $1 }
!(($1, $2) in listed) && $2 != ours && $2 != c { listed[$1, $2] = 1; peer[$1, ++peers[$1]] = $2; left++ }

END {
    print "Beside the same steps in C"
    print ""
    heads("ours", "C")
    for (i = 1; i <= calls; i++) row(call[i], ours, c)
    print ""
    if (("scramble", tool) in time) {
        print "The desk tool from file to file, beside the calls alone: a packet of a stream of " grouped(packets)
        print ""
        heads("tool", "calls")
        row("scramble", tool, through)
        row("descramble", tool, through)
        print ""
    }
    print "Targets, by instructions"
    print ""
    published = "encrypt_published"; back = "decrypt_published"
    target("encrypt beside its translation", "1.0", count["encrypt", ours], count["encrypt", c])
    target(published " beside its translation", "1.0", count[published, ours], count[published, c])
    target("encrypt_masked beside its translation", "0.7", count["encrypt_masked", ours], count["encrypt_masked", c])
    target(published " beside encrypt", "1.5", count[published, ours], count["encrypt", ours])
    target(many ", beside " published, "0.9", count[many, ours], count[published, ours])
    target("wrap" stepwise ", instructions", 2300, count["wrap" stepwise, ours], 1)
    target("unwrap" stepwise ", instructions", 3150, count["unwrap" stepwise, ours], 1)
    target("wrap_masked" stepwise ", beside " published, "1.05", count["wrap_masked" stepwise, ours], count[published, ours])
    target("unwrap_masked" stepwise ", beside " back, "1.05", count["unwrap_masked" stepwise, ours], count[back, ours])
    records(published, 4150)
    records("encrypt_masked", 8677)
    records("record_masked", 13546)
    records(back, 5781)
    records("decrypt_masked", 10966)
    records("record_masked_decryption", 17791)
    target(many ", instructions", 3350, count[many, ours], 1)
    target("scramble, eleven blocks, instructions", 25500, count["scramble", ours], 1)
    target("descramble, eleven blocks, instructions", 35000, count["descramble", ours], 1)
    target("scramble, unlisted, instructions", 1200, count["scramble, unlisted", ours], 1)
    target("tower_inverse, instructions", 320, count["tower_inverse", ours], 1)
    target("tower_box, instructions", 360, count["tower_box", ours], 1)
    target("scramble by the desk tool, beside the calls", "1.3", count["scramble", tool], count["scramble", through])
    target("descramble by the desk tool, beside the calls", "1.3", count["descramble", tool], count["descramble", through])
    if (!left) exit
    print ""
    print "Beside other libraries"
    print ""
    printf "%-24s %-31s %8s %8s %7s %9s %8s\n", "call", "by", "ns", "ours/it", "spread", "instr.", "ours/it"
    for (i = 1; i <= calls; i++) {
        n = call[i]
        for (k = 1; k <= peers[n]; k++) {
            p = peer[n, k]
            printf "%-24s %-31s %8s %8s %7s %9s %8s\n", n, p, nanoseconds(time[n, p]), ratio(own[n, p], time[n, p]),
                percent(spread[n, p]), grouped(count[n, p]), ratio(count[n, ours], count[n, p])
        }
        left -= peers[n]
        if (peers[n] && left) print ""
    }
}
