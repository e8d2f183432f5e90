// SPDX-License-Identifier: MIT
//! What the tool offers, in the words of its help.

use toolkit::spec::Takes::{File, Nothing, Word};
use toolkit::spec::{Spec, Takes, Tool, PAGES};

const NUMBER: Takes = Word(&[]);
const SUITE: Takes = Word(&["1", "2", "3", "4", "5"]);

pub const TOOL: Tool = Tool {
    name: "sframe",
    version: env!("CARGO_PKG_VERSION"),
    summary: "seals and opens frames as RFC 9605 (SFrame) defines it",
    intro: "\
The keys are kept in a store, which is a file. Each key has a number (KID) that \
sender and receiver agree on, and is added either for sending or for receiving. \
Each frame that is sealed uses up one counter of its key, and each frame opens once.",
    commands: &[
        Spec {
            name: "keygen",
            summary: "makes a new base key",
            forms: &["--out FILE [--bytes N] [--hex]"],
            text: "\
Writes a base key of N random bytes, 16 to 64, else 32, to a new file that only \
its owner can read; with --hex as hex digits. Both ends need the same one. FILE \
may be -, which is refused on a terminal.",
            options: &[("--out", File), ("--bytes", NUMBER), ("--hex", Nothing)],
        },
        Spec {
            name: "make",
            summary: "makes a new store",
            forms: &["STORE --keys N [--wait SECONDS]"],
            text: "\
Makes a new store with room for 1 to 1024 keys. A store is never made over a file: \
its counters would start again.",
            options: &[("--keys", NUMBER), ("--wait", NUMBER)],
        },
        Spec {
            name: "add",
            summary: "adds a key to a store",
            forms: &[
                "STORE --sending|--receiving --kid K --suite S --key FILE [--hex] [--wait SECONDS]",
            ],
            text: "\
Adds a key. FILE holds the base key, 16 to 64 bytes that both ends share; with \
--hex it holds them as hex digits. A key is never an argument. A file that others \
can read, and a key that ends in a newline, get a warning. Suites:
  1  AES_128_CTR_HMAC_SHA256_80     4  AES_128_GCM_SHA256_128
  2  AES_128_CTR_HMAC_SHA256_64     5  AES_256_GCM_SHA512_128
  3  AES_128_CTR_HMAC_SHA256_32, not for sending",
            options: &[
                ("--sending", Nothing),
                ("--receiving", Nothing),
                ("--kid", NUMBER),
                ("--suite", SUITE),
                ("--key", File),
                ("--hex", Nothing),
                ("--wait", NUMBER),
            ],
        },
        Spec {
            name: "remove",
            summary: "removes a key from a store",
            forms: &["STORE --kid K [--wait SECONDS]"],
            text: "\
Removes a key. A number that was added for sending stays taken in this store, so \
that no counter is ever used twice.",
            options: &[("--kid", NUMBER), ("--wait", NUMBER)],
        },
        Spec {
            name: "list",
            summary: "shows what a store holds",
            forms: &["STORE [--json]"],
            text: "\
Shows role, suite, number and next counter of each key, by rising number, and of a \
receiving key the highest counter that it has opened and its window: bit i, in \
hex, is the counter i below that one. Never the key, but a fingerprint: 8 bytes \
that are computed from key and salt by HKDF, one way. Both ends of a key show the \
same one, so compare them by another channel. Who can guess a base key can check \
the guess by it, as by any frame.

With --json the same as an object; numbers of 64 bits are strings there.",
            options: &[("--json", Nothing)],
        },
        Spec {
            name: "seal",
            summary: "seals a plaintext into a frame",
            forms: &[
                "STORE --kid K [--in FILE] [--out FILE] [--force] [--metadata FILE] [--offset N] [--hex] [--log LOG] [--wait SECONDS]",
            ],
            text: "\
Seals a plaintext into a frame; with --hex the frame is written in hex. Metadata \
is bound to the frame and is not part of it. With --offset N zero bytes stand \
before the frame, up to 65536, for bytes of your own.

With --log its key number and counter, 8 bytes each, are put behind those in LOG, \
before the frame is given out. log_check < LOG shows repeats. A log has at most \
4096 records; a full one is refused. A LOG that is missing or empty is begun. One \
that is not empty must have been begun so, which LOG.lock says: nothing is put \
behind another file, nor behind a log of an earlier version. After such a one begin \
a new LOG; cat OLD LOG | log_check looks through both.",
            options: &[
                ("--kid", NUMBER),
                ("--in", File),
                ("--out", File),
                ("--force", Nothing),
                ("--metadata", File),
                ("--offset", NUMBER),
                ("--hex", Nothing),
                ("--log", File),
                ("--wait", NUMBER),
            ],
        },
        Spec {
            name: "open",
            summary: "opens a frame",
            forms: &[
                "STORE [--in FILE] [--out FILE] [--force] [--metadata FILE] [--hex] [--wait SECONDS]",
            ],
            text: "\
Opens a frame; with --hex the frame is read in hex. Metadata must be what it was \
in sealing. No frame opens twice, and none that lies 64 counters or more behind \
the highest opened. A frame counts as opened once the store is on the disk, which \
is before the plaintext is given out.",
            options: &[
                ("--in", File),
                ("--out", File),
                ("--force", Nothing),
                ("--metadata", File),
                ("--hex", Nothing),
                ("--wait", NUMBER),
            ],
        },
        Spec {
            name: "seal-pieces",
            summary: "seals a plaintext that is never in memory as a whole",
            forms: &[
                "STORE --kid K --out FILE [--force] [--in FILE] [--length N] [--metadata FILE] [--log LOG] [--wait SECONDS]",
            ],
            text: "\
Seals a plaintext of N bytes piece by piece as it is read; without --length it has \
the size of the input, which must then be a file. The frame is the one that seal makes. The counter is \
used, and logged as seal does it, before anything is read. An input that ends early or runs over is \
refused (16), leaves no output, and has used the counter.",
            options: &[
                ("--kid", NUMBER),
                ("--out", File),
                ("--force", Nothing),
                ("--in", File),
                ("--length", NUMBER),
                ("--metadata", File),
                ("--log", File),
                ("--wait", NUMBER),
            ],
        },
        Spec {
            name: "check",
            summary: "checks whether a frame is genuine",
            forms: &["STORE [--in FILE] [--length N] [--metadata FILE]"],
            text: "\
Checks piece by piece whether a frame is genuine, and shows nothing of the \
plaintext. N is its length between header and tag; without --length it follows from \
the size of the input, which must then be a file. It does not ask whether the frame was opened before, and \
changes no store.",
            options: &[("--in", File), ("--length", NUMBER), ("--metadata", File)],
        },
        Spec {
            name: "report",
            summary: "counts what a key has opened",
            forms: &["STORE --kid K"],
            text: "Says how many of the last 64 counters of a receiving key were opened.",
            options: &[("--kid", NUMBER)],
        },
        Spec {
            name: "header",
            summary: "writes or reads the header of a frame",
            forms: &["--kid K --ctr N [--offset N]", "--in FILE [--hex]"],
            text: "\
Writes the header of a key number and a counter, the shortest, in hex; with \
--offset as in sealing. With --in it reads the header that a frame starts with, be \
it longer than the shortest.",
            options: &[
                ("--kid", NUMBER),
                ("--ctr", NUMBER),
                ("--offset", NUMBER),
                ("--in", File),
                ("--hex", Nothing),
            ],
        },
        Spec {
            name: "ratchet",
            summary: "walks a base key forward",
            forms: &["--suite S --key FILE --steps N --out NEWFILE [--hex]"],
            text: "\
Walks a base key N steps forward, 0 to 64, and writes it to a new file that only \
its owner can read; with --hex both files hold hex digits. NEWFILE may be -, which \
is refused on a terminal.",
            options: &[
                ("--suite", SUITE),
                ("--key", File),
                ("--steps", NUMBER),
                ("--out", File),
                ("--hex", Nothing),
            ],
        },
        Spec {
            name: "kid",
            summary: "writes the key number of a step",
            forms: &["--generation G --step N --bits R"],
            text: "\
Writes the key number of a step: its low R bits, 1 to 16, are the step's, the \
others are the generation.",
            options: &[
                ("--generation", NUMBER),
                ("--step", NUMBER),
                ("--bits", NUMBER),
            ],
        },
        Spec {
            name: "group-kid",
            summary: "writes the key number of a group's member",
            forms: &["--context C --index I --epoch N --index-width S --epoch-width E"],
            text: "\
Writes the key number of a member of an MLS group: its low E bits are the epoch's, \
the S bits above them are the member's index, the others are the context. S and E \
are 64 at most together.",
            options: &[
                ("--context", NUMBER),
                ("--index", NUMBER),
                ("--epoch", NUMBER),
                ("--index-width", NUMBER),
                ("--epoch-width", NUMBER),
            ],
        },
        Spec {
            name: "group-parts",
            summary: "takes such a key number apart",
            forms: &["--kid K --index-width S --epoch-width E"],
            text: "Writes these parts of a key number.",
            options: &[
                ("--kid", NUMBER),
                ("--index-width", NUMBER),
                ("--epoch-width", NUMBER),
            ],
        },
        Spec {
            name: "change-epoch",
            summary: "removes the receiving keys of an epoch",
            forms: &["STORE --epoch-width E --epoch-bits B [--wait SECONDS]"],
            text: "\
Removes the receiving keys whose numbers have B as their low E bits, be there \
none. Numbers that were added for sending stay taken.",
            options: &[
                ("--epoch-width", NUMBER),
                ("--epoch-bits", NUMBER),
                ("--wait", NUMBER),
            ],
        },
        PAGES,
    ],
    sections: &[
        (
            "Files",
            "\
FILE may be - for standard input or standard output, which is also what --in and \
--out are when they are left out; frame and plaintext go to a terminal only with \
--out - or in hex. Behind -- no word is an option. --NAME=VALUE is --NAME VALUE. \
Numbers are decimal, or hex after 0x.

--out is written whole or not at all, and what is wrong with it is found before a \
counter is used, as far as that can be; so is a standard output that is closed, or \
is /dev/null opened for reading too, which cannot be told from it. >/dev/null and \
--out /dev/null throw a result away. A file that is there stays, unless --force is \
given. Also then a store, a lock, a log, or 16 to 64 bytes that only their \
owner can read, which may be a key, are not replaced.

STORE.lock and LOG.lock stay beside a store and a log; the second says that there is \
a log, so keep and remove it with LOG. A run that is killed can leave .NAME.HEX.new beside NAME, \
HEX being 16 digits: a part of what was to be --out NAME, plaintext or a key among it. \
Or .STORE.new or .LOG.new, the first with keys, which goes with the next change. \
Remove what is left once no run uses NAME.",
        ),
        (
            "Stores",
            "\
A store is replaced as a whole or not at all, and a new counter is on the disk \
before the frame under the old one is given out. It keeps its owner and mode; \
where that cannot be, as with another user's store, it is not changed. Nor is one \
that is read-only or has several hard links.

STORE.lock keeps two runs from changing one store at the same time; list, check and \
report change nothing and take no lock. A run that waits for it says so after a \
second, and with --wait ends after so many. That file stays: do not remove it \
while a run may use the store. No store may be named like STORE.lock or \
.STORE.new.

Frames are no longer safe once a key has used a counter twice. That happens with a \
copy of a store, with a store put back as it was before, say from a backup, and \
with a new store that gets the same keys for sending: never seal with these. For \
receiving, such a store opens frames again that were opened before. A store of an \
earlier version, whose records have 80 bytes or do not stand by rising key number, \
is refused (1): make a new one, and give it new keys.",
        ),
        (
            "Exit status",
            "\
0 done; 1 to 17 and 20 to 23 refused, with these causes:
  1  the store is not sound, or not      9  plaintext above 32768 bytes, or
     1 to 1024 keys in making               metadata above 1024
  2  no such suite                      10  header cut short
  3  base key not of 16 to 64 bytes     11  no tag, or one of another length
  4  key number already in the store    12  room too short: --offset too large
  5  no empty record left               13  the tag does not match
  6  key number not in the store        14  opened before
  7  role does not allow it             15  64 counters or more too old
  8  the key has no counter left        20  not 1 to 16 bits of a step, or a
 16  input shorter or longer than           key number past 64 bits
     was announced
 17  suite 3 is not for sending
 21  more than 64 steps                 23  widths above 64 together, or a
 22  index or epoch bits past their         key number past 64 bits
     width
64 the command line is wrong; 65 an input is not hex; 74 a file failed; 75 another \
run has the store, and --wait is over; 141 nobody reads the output any more.",
        ),
        (
            "Example",
            "\
Sealing at one end and opening at the other:
  sframe keygen --out shared.key
  sframe make ward --keys 4
  sframe make doctor --keys 4
  sframe add ward --sending --kid 200 --suite 4 --key shared.key
  sframe add doctor --receiving --kid 200 --suite 4 --key shared.key
  sframe seal ward --kid 200 --in picture --out frame
  sframe open doctor --in frame --out picture.opened",
        ),
    ],
};
