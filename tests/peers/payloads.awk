# Holds a scrambled stream to where another program finds the payload of its packets: awk -f tests/peers/payloads.awk BEFORE
# SCRAMBLED RESTORED, of which each is what tsreport -justpid of tstools prints for the listed PIDs. Prints a line for each fault,
# and last how many packets and whole blocks there are; fails where there is a fault, or no block.
function fault(text) { print substr(packet[1, number], match(packet[1, number], /[0-9]/)) ": " text; faults++ }
# So many characters of a payload, from a block on: a byte is two digits and a blank.
function part(file, block, length_of_it) { return substr(payload[file, number], 48 * block + 1, length_of_it) }
# The files are told by their names, because one may be empty.
{ file = FILENAME == ARGV[1] ? 1 : FILENAME == ARGV[2] ? 2 : 3 }
FNR == 1 { number = 0 }
/: TS Packet / { packet[file, ++number] = $0; count[file] = number }
/^ *Adapt / { field[file, number] = $0 }
/^ *Payload / { size[file, number] = $2; sub(/^.*: */, ""); payload[file, number] = size[file, number] == "(0" ? "" : $0 }
END {
    for (number = 1; number <= count[1]; number++) {
        if (packet[2, number] != packet[1, number]) fault("it is another packet")
        if (field[2, number] != field[1, number]) fault("it has another adaptation field")
        if (size[2, number] != size[1, number]) fault("it has a payload of another size")
        whole = int(substr(size[1, number], 2) / 16)
        for (k = 0; k < whole; k++)
            if (part(2, k, 47) == part(1, k, 47)) fault("block " k " is clear")
        if (part(2, whole, 720) != part(1, whole, 720)) fault("its rest is not clear")
        if (packet[3, number] field[3, number] payload[3, number] != packet[1, number] field[1, number] payload[1, number])
            fault("it is not restored")
        blocks += whole
    }
    if (count[2] != count[1] || count[3] != count[1]) { print "there are not as many packets in each stream"; faults++ }
    print count[1] + 0 " packets of listed PIDs, " blocks + 0 " blocks in them"
    exit faults > 0 || blocks == 0
}
