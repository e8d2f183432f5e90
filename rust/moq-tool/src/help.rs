// SPDX-License-Identifier: MIT
//! What the tool offers, in the words of its help.

use toolkit::spec::Takes::{File, Nothing, Word};
use toolkit::spec::{Spec, Takes, Tool, PAGES};

const NUMBER: Takes = Word(&[]);
const SUITE: Takes = Word(&["1", "2", "3", "4", "5"]);

pub const TOOL: Tool = Tool {
    name: "moq",
    version: env!("CARGO_PKG_VERSION"),
    summary: "seals and opens objects as draft-ietf-moq-secure-objects defines it",
    intro: "\
The tracks are kept in a track store, which is a file. A track is a full track \
name with a Key ID, and is added either for sending or for receiving. NAME is the \
serialized full track name, 0 to 256 bytes, in hex.",
    commands: &[
        Spec {
            name: "make",
            summary: "makes a new track store",
            forms: &["STORE --tracks N [--wait SECONDS]"],
            text: "\
Makes a new store with room for N tracks, 1 to 16. A store is never made over a \
file: its pairs would start again.",
            options: &[("--tracks", NUMBER), ("--wait", NUMBER)],
        },
        Spec {
            name: "add",
            summary: "adds a track to a store",
            forms: &[
                "STORE --sending|--receiving --name NAME --key-id K --suite S --key FILE [--hex] [--wait SECONDS]",
            ],
            text: "\
Adds a track. FILE holds the base key, 16 to 64 bytes that both ends share; with \
--hex it holds them as hex digits. A key is never an argument; sframe keygen makes \
one. A file that others can read, and a key that ends in a newline, get a warning. \
Suites:
  1  AES_128_CTR_HMAC_SHA256_80     4  AES_128_GCM_SHA256_128
  2  AES_128_CTR_HMAC_SHA256_64     5  AES_256_GCM_SHA512_128
  3  AES_128_CTR_HMAC_SHA256_32, not for sending",
            options: &[
                ("--sending", Nothing),
                ("--receiving", Nothing),
                ("--name", NUMBER),
                ("--key-id", NUMBER),
                ("--suite", SUITE),
                ("--key", File),
                ("--hex", Nothing),
                ("--wait", NUMBER),
            ],
        },
        Spec {
            name: "remove",
            summary: "removes a track from a store",
            forms: &["STORE --name NAME --key-id K [--wait SECONDS]"],
            text: "Removes a track. Its name and Key ID stay taken in this store.",
            options: &[("--name", NUMBER), ("--key-id", NUMBER), ("--wait", NUMBER)],
        },
        Spec {
            name: "list",
            summary: "shows what a store holds",
            forms: &["STORE [--json]"],
            text: "\
Shows role, suite, Key ID and name of each track, as the store has them, and the last \
pair of one that has sealed; never a key. The name is in hex, as --name takes it. A \
track that was removed is retired. The store stays as it is, and gets no lock.

With --json the same as an object; numbers of 64 bits are strings there.",
            options: &[("--json", Nothing)],
        },
        Spec {
            name: "seal",
            summary: "seals a plaintext into an object",
            forms: &[
                "STORE --name NAME --key-id K --group G --object O [--properties FILE] [--in FILE] [--out FILE] [--force] [--hex] [--wait SECONDS]",
            ],
            text: "\
Seals a plaintext as the object of that pair, which has to be above the last one; \
with --hex the object is written in hex. The properties are the immutable ones, as \
they are serialized.",
            options: OBJECT,
        },
        Spec {
            name: "open",
            summary: "opens an object",
            forms: &[
                "STORE --name NAME --key-id K --group G --object O [--properties FILE] [--in FILE] [--out FILE] [--force] [--hex]",
            ],
            text: "\
Opens an object; with --hex it is read in hex. Name, Key ID, pair and properties \
must be those of its sealing. The store stays as it is.",
            options: OBJECT.split_at(OBJECT.len() - 1).0,
        },
        PAGES,
    ],
    sections: &[
        (
            "Files",
            "\
FILE may be - for standard input or standard output, which is also what --in and \
--out are when they are left out; object and plaintext go to a terminal only with \
--out - or in hex. Behind -- no word is an option. --NAME=VALUE is --NAME VALUE. \
Numbers are decimal, or hex after 0x.

--out is written whole or not at all, and what is wrong with it is found before a \
pair is used, as far as that can be; so is a standard output that is closed, or is \
/dev/null opened for reading too, which cannot be told from it. >/dev/null and \
--out /dev/null throw a result away. A file that is there stays, unless --force is \
given. Also then a store, a lock, or 16 to 64 bytes that only their owner can \
read, which may be a key, are not replaced.

STORE.lock stays beside a store. A run that is killed can leave .NAME.HEX.new beside \
NAME, HEX being 16 digits: a part of what was to be --out NAME, plaintext among it. Or \
.STORE.new, with keys, which goes with the next change. Remove what is left once no \
run uses NAME.",
        ),
        (
            "Stores",
            "\
A store is replaced as a whole or not at all, and its new last pair is on the disk \
before the object is given out. It keeps its owner and mode; where that cannot be, \
as with another user's store, it is not changed. Nor is one that is read-only or has \
several hard links. STORE.lock keeps two runs from changing one store at the same \
time; a run that waits for it says so after a second, and with --wait ends after so \
many. Do not remove it while a run may use the store. No store may be named like \
STORE.lock or .STORE.new.

Objects are no longer safe once a track has sealed two under one pair. That can happen \
with a copy of a store, with a store put back as it was before, say from a backup, and \
with a new store that gets the same tracks with the same keys for sending: never seal \
with these. An object opens as often as it is asked for; who must not take one twice \
keeps count.",
        ),
        (
            "Exit status",
            "\
0 done; 1 to 7, 9, 11, 13, 17, 24 and 25 refused, with these causes:
  1  the store is not sound, or not      9  plaintext above 32768 bytes,
     1 to 16 tracks in making               properties above 1024, or a name
  2  no such suite                          above 256
  3  base key not of 16 to 64 bytes     11  object too short for a tag
  4  name and Key ID already in the     13  the tag does not match
     store                              17  suite 3 is not for sending
  5  no empty record left               24  the pair is not above the last one
  6  name and Key ID not in the store   25  the object number has more than
  7  role does not allow it                 32 bits
64 the command line is wrong; 65 an input is not hex; 74 a file failed; 75 another \
run has the store, and --wait is over; 141 nobody reads the output any more.",
        ),
    ],
};

/// The options of sealing; all but the last are those of opening.
const OBJECT: &[(&str, Takes)] = &[
    ("--name", NUMBER),
    ("--key-id", NUMBER),
    ("--group", NUMBER),
    ("--object", NUMBER),
    ("--properties", File),
    ("--in", File),
    ("--out", File),
    ("--force", Nothing),
    ("--hex", Nothing),
    ("--wait", NUMBER),
];
