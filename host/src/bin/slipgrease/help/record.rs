//! The command that says most.

use super::Help;

pub(super) const RECORD: Help = Help {
    name: "record",
    usage: "record [--decrypt] [--offset O] [--step D] [--masks MASKS] [--against FILE] [--json] [--svg FILE] KEY BLOCK",
    summary: "the states of a run, of two side by side, or beside a receiver's dump",
    text: "\
Prints the states of an encryption, 51, 61 or 71 by the length of the key, or with --decrypt those of a decryption, 61, 73 or 85.
Without an offset the run is plain. With one, or with sixteen as for mask, it is masked, and each state stands with the plain one,
its mask and the mask's name. That tells the label of byte 0, as Mask(7), or with sixteen offsets o, how far all labels are on
from these, as Mask(o+4). The step is 1 unless another is named, 4 to 15, and the masks are the published ones unless sixteen others
are given. --key-file FILE or --schedule SCHEDULE can stand for KEY.

Rounds are counted from 0, and begin with their key, round 0 with key 0; the last key, which is 10, 12 or 14, ends the last round.
Those of a decryption begin behind that key, with InvShiftRows, and have the other keys down to key 0.

A record gives the key away, a masked one too: two states between which a round key is added differ in just that key. State 0 xor
state 1 is round key 0, and state 5 xor state 6 round key 1; of a decryption states 0 and 1 give the last round key, and 4 and 5 the
one before. Keep a record as you keep the key.

A second run is put beside the first where --offset2 O, --step2 D, --masks2 MASKS, --key2 KEY or --block2 BLOCK is given; what it
is not given it has from the first, its key is as long, and sixteen other offsets are called o2. --against FILE puts what a receiver
has dumped beside the run: 16 bytes for each state, or a line of 32 hex digits; - is standard input. The xor of what is under the
masks is printed where that differs, dashes where the two differ by their masks alone, and dots where they are equal; then how many
bytes differ, the first of them, and the masks there: whether a dump is covered by a mask of another label than the one that is due.
A dump whose first state is covered as at another offset, or as at offsets that are all equally far on from the run's, is read at
these. The status is 3 if any byte differs.

--json prints the same as JSON. A run has \"offset\" there, or in place of it, where there are sixteen, the list \"offsets\". --svg FILE
draws it, in a file with mode 600, for its owner alone; - is standard output.",
    example: "\
$ slipgrease record --key-file key.txt 00112233445566778899aabbccddeeff
 n  after            state
 0  block            00112233445566778899aabbccddeeff
 1  key 0            00102030405060708090a0b0c0d0e0f0
 2  boxes 0          63cab7040953d051cd60e0e7ba70e18c
...",
};
