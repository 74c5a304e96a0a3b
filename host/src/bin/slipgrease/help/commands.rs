//! The commands in the order in which they are listed.

use super::record::RECORD;
use super::Help;

pub(super) const HELPS: &[Help] = &[
    Help {
        name: "expand",
        usage: "expand (KEY | --key-file FILE)",
        summary: "the round keys of a key",
        text: "\
Prints the key schedule, a round key to a line: eleven of a key of 16 bytes, thirteen of one of 24, and fifteen of one of 32.",
        example: "\
$ slipgrease expand --key-file key.txt
000102030405060708090a0b0c0d0e0f
101112131415161718191a1b1c1d1e1f
a573c29fa176c498a97fce93a572c09c
...
$ slipgrease expand --key-file key16.txt
000102030405060708090a0b0c0d0e0f
d6aa74fdd2af72fadaa678f1d6ab76fe
...",
    },
    Help {
        name: "encrypt",
        usage: "encrypt KEY BLOCK",
        summary: "a block encrypted by the rack's engine",
        text: "\
Prints the ciphertext of one block, by ten rounds with a key of 16 bytes, twelve with 24, and fourteen with 32. --key-file FILE or
--schedule SCHEDULE, any 176, 208 or 240 bytes, can stand for KEY.",
        example: "\
$ slipgrease encrypt --key-file key.txt 00112233445566778899aabbccddeeff
8ea2b7ca516745bfeafc49904b496089
$ slipgrease encrypt - 00112233445566778899aabbccddeeff <key.txt
8ea2b7ca516745bfeafc49904b496089
$ slipgrease expand - <key.txt | slipgrease encrypt --schedule - 00112233445566778899aabbccddeeff
8ea2b7ca516745bfeafc49904b496089
$ slipgrease encrypt --key-file key16.txt 00112233445566778899aabbccddeeff
69c4e0d86a7b0430d8cdb78070b4c55a",
    },
    Help {
        name: "decrypt",
        usage: "decrypt KEY BLOCK",
        summary: "a block decrypted by the rack's engine",
        text: "\
Prints the plaintext of one block. --key-file FILE or --schedule SCHEDULE, any 176, 208 or 240 bytes, can stand for KEY.",
        example: "\
$ slipgrease decrypt --key-file key.txt 8ea2b7ca516745bfeafc49904b496089
00112233445566778899aabbccddeeff",
    },
    Help {
        name: "mask",
        usage: "mask --offset O [--step D] [--masks MASKS] KEY BLOCK",
        summary: "a block encrypted by the module's engine",
        text: "\
Prints the ciphertext that a masked run ends with, at an offset from 0 to 15 that the caller chooses, or at sixteen with commas
between them, one for each byte of the block; 3 is short for 3,4,5,6,7,8,9,10,11,12,13,14,15,0,1,2. The step is how far the labels
of the masks advance in a round, 1 or 4 to 15. Where they are not named, the step is 1 and the masks are the published ones.
--key-file FILE or --schedule SCHEDULE can stand for KEY.",
        example: "\
$ slipgrease mask --offset 3 --key-file key.txt 00112233445566778899aabbccddeeff
8ea2b7ca516745bfeafc49904b496089
$ slipgrease mask --offset 3,9,0,15,7,7,12,4,1,10,2,8,5,14,6,11 --key-file key.txt 00112233445566778899aabbccddeeff
8ea2b7ca516745bfeafc49904b496089",
    },
    Help {
        name: "unmask",
        usage: "unmask --offset O [--step D] [--masks MASKS] KEY BLOCK",
        summary: "a block decrypted by the module's engine",
        text: "\
Prints the plaintext that a masked decryption ends with. Offsets, step and masks are as for mask, and need not be those with which
the block was encrypted. --key-file FILE or --schedule SCHEDULE can stand for KEY.",
        example: "\
$ slipgrease unmask --offset 3 --key-file key.txt 8ea2b7ca516745bfeafc49904b496089
00112233445566778899aabbccddeeff",
    },
    Help {
        name: "blocks",
        usage: "blocks --offsets OFFSETS [--step D] KEY BLOCK ..",
        summary: "up to 256 blocks encrypted by the module's engine in one call",
        text: "\
Prints for each block what mask prints for it, a block to a line. OFFSETS has a number for each of them, 0 to 15, with commas
between the numbers. If any is wrong, no block is encrypted. The step is the same for all, and is 1 unless another is named, 4 to
15. Blocks that are not given as arguments are all words of standard input. --key-file FILE or --schedule SCHEDULE can stand for
KEY.",
        example: "\
$ slipgrease blocks --offsets 3,15 --key-file nist.txt \
6bc1bee22e409f96e93d7e117393172a ae2d8a571e03ac9c9eb76fac45af8e51
f3eed1bdb5d2a03c064b5a7e3db181f8
591ccb10d410ed26dc5ba74a31362870",
    },
    Help {
        name: "wrap",
        usage: "wrap [--offset O] KEY DATA",
        summary: "key data wrapped under a wrapping key, by RFC 3394",
        text: "\
Prints the wrapped key of key data, 16 to 256 bytes in a multiple of 8. It is 8 bytes longer. KEY is the wrapping key, of 32 bytes,
which RFC 3394 calls the key-encryption key, KEK. With an offset from 0 to 15 that the caller chooses the module's engine wraps,
with the published masks and step 1, and without one the rack's; both give the same. The key data may be broken into several words,
as arguments or on standard input. --key-file FILE or --schedule SCHEDULE can stand for KEY.",
        example: "\
$ slipgrease wrap --key-file key.txt 00112233445566778899aabbccddeeff
64e8c3f9ce0f5ba263e9777905818a2a93c8191e7d6e8ae7",
    },
    Help {
        name: "unwrap",
        usage: "unwrap [--offset O] KEY WRAPPED",
        summary: "the key data of a wrapped key",
        text: "\
Prints the key data of a wrapped key on one line, so that another command can take it. KEY and offset are as for wrap; the offset
need not be that at which the key was wrapped. The wrapped key may be broken into several words, as arguments or on standard
input, and so into the lines of a partner's file. --key-file FILE or --schedule SCHEDULE can stand for KEY.

Beside the key data a register of 8 bytes is recovered. Where it is not a6 eight times, the wrapped key is damaged, or was wrapped
under another key or with another initial value. That is a data fault: the message says what the register is, and nothing of the
key data is printed.",
        example: "\
$ slipgrease unwrap --key-file key.txt \
28c9f404c4b810f4cbccb35cfb87f8263f5786e2d80ed326cbc7f0e71a99f43bfb988b9b7a02dd21
00112233445566778899aabbccddeeff000102030405060708090a0b0c0d0e0f
$ slipgrease unwrap --key-file key.txt <partner.txt | slipgrease expand
00112233445566778899aabbccddeeff
000102030405060708090a0b0c0d0e0f
...",
    },
    Help {
        name: "scramble",
        usage: "scramble --pipes FILE (--even | --odd) [--pass] [IN [OUT]]",
        summary: "a stream of transport packets scrambled for seven pipes",
        text: "\
Takes a stream of 188-byte packets (ISO/IEC 13818-1) from a file or standard input to a file or standard output. Of a listed PID,
the whole 16-byte blocks of the payload are encrypted by CBC, in each packet from the pipe's starting block on, with the pipe's even
or odd key as the caller names, and the scrambling bits become 10 or 11. All other packets are copied, and so are those with a
payload under 16 bytes. After each read all packets that are whole are written, so that it stands in a live pipe. Standard input and
output are meant where no file is named, or -.

FILE has a line for each of the seven pipes: PID, even key, odd key and starting block, of 4, 64, 64 and 32 hex digits; what follows
a # is left out. No key is ever printed.

At the end a table on standard error counts the packets of each PID: changed, copied, and refused, by the library's reply number. A
packet that is refused ends the run, and so does a last piece under 188 bytes. Both are data faults, told with their place in
packets and bytes, which are counted from 0, and all packets before have been written. Where sync is lost because the stream is one
of 192- or 204-byte packets, that is told too.

With --pass a refused packet is copied and counted, and the run goes on. Where sync is lost, it goes on 188 bytes at a time, and
what has no sync byte is counted in the row lost, for it has no PID. A last piece under 188 bytes is copied, and told below the
table.",
        example: "\
$ slipgrease scramble --pipes pipes.txt --even clear.ts scrambled.ts
PID       packets      changed       copied   refused 20   refused 21   refused 23
0000            1            0            1            0            0            0
0100            3            2            1            0            0            0
all             4            2            2            0            0            0",
    },
    Help {
        name: "descramble",
        usage: "descramble --pipes FILE [--pass] [IN [OUT]]",
        summary: "the stream that scramble was given",
        text: "\
Takes a stream as scramble does, with the same file of pipes. The scrambling bits of each packet name the even or the odd key, and
become 00. A packet whose bits are 00 is copied, and so is every packet of a PID that is not listed. What is refused, counted and
passed is as for scramble, whose help says more.",
        example: "\
$ slipgrease descramble --pipes pipes.txt scrambled.ts restored.ts
PID       packets      changed       copied   refused 20   refused 21   refused 23
0000            1            0            1            0            0            0
0100            3            2            1            0            0            0
all             4            2            2            0            0            0",
    },
    Help {
        name: "convert",
        usage: "convert [STORED OFFSET]",
        summary: "the standard block of one that an early module stored in form 1",
        text: "\
Prints the standard ciphertext of a block that an early module stored in form 1, with the published masks and step 1: it takes off
Mask(OFFSET+14), which is still on the block: early modules had keys of 32 bytes alone. OFFSET is that of the block's run, 0 to 15.
Without arguments, or for -, each line of standard input has a stored block and its offset, what follows a # is left out, and the
standard blocks are printed in their order, a block to a line, of up to 65,536 lines. If any line is wrong, no block is printed.",
        example: "\
$ slipgrease convert 7e5db7c5675e16e38f96dc0ae8e5a640 0
8ea2b7ca516745bfeafc49904b496089",
    },
    RECORD,
    Help {
        name: "pipe",
        usage: "pipe [--step D] [--json] KEY BLOCK",
        summary: "a pipe's key, made by the rack and by the module at every offset",
        text: "\
Prints the rack's ciphertext of a block and, for each of the sixteen offsets, the block as the module covers it, the module's
ciphertext and whether it is equal, and in how many recorded states and bytes the runs differed from the rack's on the way. The
step is 1 unless another is named, 4 to 15. With --json all this is printed as an object of JSON. --key-file FILE or --schedule
SCHEDULE can stand for KEY.",
        example: "\
$ slipgrease pipe --key-file key.txt 00112233445566778899aabbccddeeff
The pipe's key, made of the block 00112233445566778899aabbccddeeff
  by the rack                           8ea2b7ca516745bfeafc49904b496089
...",
    },
    Help {
        name: "sheet",
        usage: "sheet read SHEET | sheet write [--step D] MASKS",
        summary: "a mask sheet read or written",
        text: "\
A sheet of version 1 is 21 bytes: 4d 53 4b, version 0001, and sixteen masks. It means step 1. Any other step, 4 to 15, is in a
sheet of version 2, 22 bytes: 4d 53 4b, version 0002, sixteen masks, and the step. Both ways the sheet goes as hex digits. Reading
prints the masks and then the step; writing takes step 1 where none is named.",
        example: "\
$ slipgrease sheet read 4d534b0002000f3639535c656a959aa3acc6c9f0ff05
000f3639535c656a959aa3acc6c9f0ff
step 5",
    },
    Help {
        name: "fitness",
        usage: "fitness MASKS",
        summary: "whether a mask table is fit",
        text: "\
Prints 1 and the word fit where any three of the eight bit positions show each of their eight patterns in exactly two of the sixteen
masks, and otherwise 0 and the word unfit, with status 3.",
        example: "\
$ slipgrease fitness 000f3639535c656a959aa3acc6c9f0ff
1 fit",
    },
    Help {
        name: "report",
        usage: "report [--summary] [--svg FILE] [SHEET]",
        summary: "how evenly the masks of a sheet show, before it is shipped",
        text: "\
Prints a line for each row of the mask table in which the state is covered, 1 to 7, each byte, and each three bits of the mask over
it, 0 being the lowest: these five numbers, and at how many of the sixteen offsets the bits show each of their eight patterns, from
000 to 111, the highest bit first. A line is even where all eight counts are 2. Of fit masks all are, but in row 5, after
MixColumns, they need not be. The last line has how many are even, and the lowest and the highest count. All is the same in any
round, with any step.

SHEET is as for sheet read. On standard input the sheet's own bytes are taken too, which begin with no digit: then all of it is the
sheet.

--summary prints a line for each row instead. --svg FILE draws how many of the 56 triples are even in each row and byte, and nothing
is printed unless the summary is asked for too; - is standard output, for one of the two.",
        example: "\
$ slipgrease report 4d534b0001000f3639535c656a959aa3acc6c9f0ff
1 0 0 1 2 2 2 2 2 2 2 2 2
1 0 0 1 3 2 2 2 2 2 2 2 2
...
$ slipgrease report --summary 4d534b0001000f3639535c656a959aa3acc6c9f0ff
row                       even     of  lowest  highest
  1  covered block         896    896       2        2
  2  after a key           896    896       2        2
...",
    },
    Help {
        name: "tower",
        usage: "tower X R",
        summary: "a covered byte, inverted in the tower",
        text: "\
Prints how the inverse of a byte is found by masked inversion in the tower of document 000, a field of halves of four bits. X is
the byte covered by the mask R, both of two hex digits. Each line has a value, the mask that lies over it, the value as it is seen
under that mask, and the mask's name; (4.7) to (4.10) are the document's formulas. The last line is what the library's
tower_inverse answers; those before it are worked out beside it.",
        example: "\
$ slipgrease tower 4c 1f
after                        plain  mask  covered  mask's name
the byte                     53     1f    4c       r
the change of basis          55     1e    4b       t(r), r in the tower
(4.7), the norm              f      1     e        the higher half of t(r)
(4.8), its inverse           8      1     9        the higher half of t(r)
the exchange of its mask     8      e     6        the lower half of t(r)
(4.9), the higher half       e      1     f        the higher half of t(r)
(4.10), the lower half       0      e     e        the lower half of t(r)
the change back: the answer  ca     1f    d5       r",
    },
    Help {
        name: "vectors",
        usage: "vectors [--step D] [--json] [FILE]",
        summary: "a file of test vectors, run and counted",
        text: "\
Each line of the file has a key, a block and its ciphertext; what follows a # is left out. Or it is one of NIST's response files for
AES-128, AES-192 or AES-256 in mode ECB as they are published, with KEY =, PLAINTEXT = and CIPHERTEXT = under [ENCRYPT] and
[DECRYPT]; a plaintext of many blocks is as many vectors, and where the file's head says MCT, 1,000 encryptions lie between a
plaintext and its ciphertext. Without FILE, or for -, standard input is read.

Each vector is encrypted and decrypted, by the rack's engine and with the published masks at all sixteen offsets. The step is 1
unless another is named, 4 to 15. What differs is printed, and is a data fault. With --json the differences and the counts are
printed as an object of JSON.",
        example: "\
$ slipgrease vectors vectors.txt
vectors 1, compared 34, differ 0
$ slipgrease vectors - <ECBGFSbox256.rsp
vectors 10, compared 340, differ 0",
    },
    Help {
        name: "completion",
        usage: "completion bash",
        summary: "what lets bash complete these commands and their options",
        text: "Prints a script that bash reads, as by: eval \"$(slipgrease completion bash)\"",
        example: "\
$ slipgrease completion bash
# How bash completes the words of slipgrease; slipgrease completion bash prints it.
...",
    },
];
