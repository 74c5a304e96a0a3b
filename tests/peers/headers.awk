# Holds a scrambled stream to what another program reads in the headers of its packets: awk -F TAB -v listed='0100 0101' -v bits=2
# -f tests/peers/headers.awk BEFORE SCRAMBLED RESTORED. Each file has a line for each packet: PID, scrambling bits and adaptation
# code in hex, and the length of the field, if there is one. Prints a line for each fault, and last how many packets there are and
# how many of them are scrambled; fails where there is a fault, or none is scrambled, or all are.
function fault(text) { print "packet " number ": " text; faults++ }
# The last digits of a number in hex, as many as are told.
function digits(text, count) { return substr("0000" text, length(text) + 5 - count) }
BEGIN { for (i = split(listed, pids, " "); i > 0; i--) is_listed[pids[i]] = 1 }
# The files are told by their names, because one may be empty.
{ file = FILENAME == ARGV[1] ? 1 : FILENAME == ARGV[2] ? 2 : 3 }
{ line[file, FNR] = $0; count[file] = FNR }
END {
    for (number = 1; number <= count[1]; number++) {
        split(line[1, number], before, FS)
        split(line[2, number], after, FS)
        has_block = digits(before[3], 1) == 1 || digits(before[3], 1) == 3 && before[4] <= 167
        changes = (digits(before[1], 4) in is_listed) && has_block
        expected = changes ? bits : digits(before[2], 1)
        if (digits(after[2], 1) != expected) fault("its bits are " digits(after[2], 1) ", and should be " expected)
        if (after[1] != before[1]) fault("it has another PID")
        if (after[3] != before[3] || after[4] != before[4]) fault("it has another adaptation field")
        if (line[3, number] != line[1, number]) fault("it is not restored")
        changed += changes
    }
    if (count[2] != count[1] || count[3] != count[1]) { print "there are not as many packets in each stream"; faults++ }
    print count[1] + 0 " packets, " changed + 0 " of them scrambled"
    exit faults > 0 || changed == 0 || changed == count[1]
}
