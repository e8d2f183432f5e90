// SPDX-License-Identifier: MIT
//! AES-128 and AES-256 encryption, FIPS 197, by word tables.

/// The block length in bytes.
pub const BLOCK: usize = 16;

/// The rounds of AES-256, the most there are.
const MAX_ROUNDS: usize = 14;

/// An expanded key.
#[derive(Clone)]
pub struct Aes {
    /// One more than there are rounds; the rest is unused.
    round_keys: [[u32; 4]; MAX_ROUNDS + 1],
    rounds: usize,
}

impl Aes {
    /// Expands a key of 16 or 32 bytes (section 5.2).
    pub fn new(key: &[u8]) -> Self {
        assert!(key.len() == 16 || key.len() == 32, "AES-128 or AES-256");
        let nk = key.len() / 4;
        let rounds = nk + 6;

        let mut round_keys = [[0; 4]; MAX_ROUNDS + 1];
        let w = round_keys.as_flattened_mut();
        for (word, key) in w.iter_mut().zip(words(key)) {
            *word = key;
        }
        let mut rcon = 1;
        for i in nk..4 * (rounds + 1) {
            let mut word = w[i - 1];
            if i % nk == 0 {
                word = sub_word(word.rotate_left(8)) ^ u32::from(rcon) << 24;
                rcon = times_x(rcon);
            } else if nk > 6 && i % nk == 4 {
                word = sub_word(word);
            }
            w[i] = w[i - nk] ^ word;
        }
        Aes { round_keys, rounds }
    }

    /// Encrypts one block (section 5.1). A state column is a word, its top row
    /// in the highest byte.
    pub fn encrypt(&self, block: &[u8; BLOCK]) -> [u8; BLOCK] {
        let mut state = self.round_keys[0];
        for (column, word) in state.iter_mut().zip(words(block)) {
            *column ^= word;
        }
        for key in &self.round_keys[1..self.rounds] {
            state = [
                round_column(&state, 0) ^ key[0],
                round_column(&state, 1) ^ key[1],
                round_column(&state, 2) ^ key[2],
                round_column(&state, 3) ^ key[3],
            ];
        }
        let last = self.round_keys[self.rounds];
        let mut output = [0; BLOCK];
        for (column, bytes) in output.chunks_exact_mut(4).enumerate() {
            let word = sub_word(shifted_column(&state, column)) ^ last[column];
            bytes.copy_from_slice(&word.to_be_bytes());
        }
        output
    }
}

/// The big-endian words of `bytes`.
fn words(bytes: &[u8]) -> impl Iterator<Item = u32> + '_ {
    bytes
        .chunks_exact(4)
        .map(|word| u32::from_be_bytes(word.try_into().unwrap()))
}

/// Byte `row` of a column.
fn row(column: u32, row: usize) -> usize {
    usize::from((column >> (24 - 8 * row)) as u8)
}

/// A column after SubBytes, ShiftRows and MixColumns, from the tables.
fn round_column(state: &[u32; 4], column: usize) -> u32 {
    TABLES[0][row(state[column], 0)]
        ^ TABLES[1][row(state[(column + 1) % 4], 1)]
        ^ TABLES[2][row(state[(column + 2) % 4], 2)]
        ^ TABLES[3][row(state[(column + 3) % 4], 3)]
}

/// A column after ShiftRows (section 5.1.2).
fn shifted_column(state: &[u32; 4], column: usize) -> u32 {
    (state[column] & 0xff00_0000)
        | (state[(column + 1) % 4] & 0x00ff_0000)
        | (state[(column + 2) % 4] & 0x0000_ff00)
        | (state[(column + 3) % 4] & 0x0000_00ff)
}

/// SubWord (section 5.2): the S-box on each byte.
fn sub_word(word: u32) -> u32 {
    u32::from_be_bytes(word.to_be_bytes().map(|byte| SBOX[usize::from(byte)]))
}

/// The S-box (section 5.1.1).
static SBOX: [u8; 256] = s_box();

/// Entry `x` of table `r` is what MixColumns makes of a column that holds
/// `SBOX[x]` in row `r` and zero elsewhere.
static TABLES: [[u32; 256]; 4] = tables();

const fn tables() -> [[u32; 256]; 4] {
    let s_box = s_box();
    let mut tables = [[0; 256]; 4];
    let mut x = 0;
    while x < 256 {
        let s = s_box[x];
        let doubled = times_x(s);
        let column = u32::from_be_bytes([doubled, s, s, doubled ^ s]);
        let mut row = 0;
        while row < 4 {
            tables[row][x] = column.rotate_right(8 * row as u32);
            row += 1;
        }
        x += 1;
    }
    tables
}

/// The inverse in GF(2^8), then the affine map. The powers of `x + 1` run
/// through every non-zero element, and those of its inverse run beside them.
const fn s_box() -> [u8; 256] {
    let mut table = [0; 256];
    table[0] = affine(0);
    let mut element: u8 = 1;
    let mut inverse: u8 = 1;
    let mut i = 0;
    while i < 255 {
        table[element as usize] = affine(inverse);
        element ^= times_x(element);
        inverse = over_x_plus_1(inverse);
        i += 1;
    }
    table
}

/// The affine map of section 5.1.1.
const fn affine(b: u8) -> u8 {
    b ^ b.rotate_left(1) ^ b.rotate_left(2) ^ b.rotate_left(3) ^ b.rotate_left(4) ^ 0x63
}

/// Multiplication by `x` in GF(2^8) (section 4.2.1).
const fn times_x(b: u8) -> u8 {
    (b << 1) ^ ((b >> 7) * 0x1b)
}

/// Division by `x + 1` in GF(2^8): multiplication by its inverse, `f6`.
const fn over_x_plus_1(b: u8) -> u8 {
    let mut product = 0;
    let mut power = b;
    let mut bit = 0;
    while bit < 8 {
        product ^= power * (0xf6 >> bit & 1);
        power = times_x(power);
        bit += 1;
    }
    product
}
