//! AES-128 and AES-256 (FIPS 197), and counter mode, from the standard's text. A round goes column by
//! column: what SubBytes and MixColumns make of one byte is looked up.

pub const BLOCK: usize = 16;
pub type Block = [u8; BLOCK];

/// The S-box: the inverse in GF(2^8), then the affine map of FIPS 197, section 5.1.1.
static S_BOX: [u8; 256] = s_box();

/// Multiplication by x modulo x^8 + x^4 + x^3 + x + 1.
const fn times_x(a: u8) -> u8 {
    let carry = if a >> 7 == 1 { 0x1B } else { 0 };
    (a << 1) ^ carry
}

const fn s_box() -> [u8; 256] {
    let mut table = [0; 256];
    // p runs through the powers of the generator 3, q through those of its inverse 0xF6.
    let (mut p, mut q) = (1u8, 1u8);
    let mut count = 0;
    while count < 255 {
        let turned = q ^ q.rotate_left(1) ^ q.rotate_left(2) ^ q.rotate_left(3) ^ q.rotate_left(4);
        table[p as usize] = turned ^ 0x63;
        p ^= times_x(p);
        q = divided_by_3(q);
        count += 1;
    }
    table[0] = 0x63;
    table
}

/// What a byte at row 0 of a column adds to the column, SubBytes and MixColumns taken together: the
/// multiples 2, 1, 1 and 3 of its S-box value, row 0 in the lowest byte. For row r it is turned by
/// 8 r bits.
static MIXED: [u32; 256] = mixed();

const fn mixed() -> [u32; 256] {
    let table = s_box();
    let mut mixed = [0; 256];
    let mut at = 0;
    while at < 256 {
        let (one, two) = (table[at], times_x(table[at]));
        mixed[at] = u32::from_le_bytes([two, one, one, one ^ two]);
        at += 1;
    }
    mixed
}

const fn divided_by_3(mut q: u8) -> u8 {
    q ^= q << 1;
    q ^= q << 2;
    q ^= q << 4;
    if q >> 7 == 1 { q ^ 0x09 } else { q }
}

/// An expanded key: a round key for the start and for every round.
pub struct Aes {
    round_keys: Vec<Block>,
    /// The same by columns.
    columns: Vec<[u32; 4]>,
}

impl Aes {
    pub fn new_128(key: &[u8; 16]) -> Aes {
        Aes::expanded(key, 10)
    }

    pub fn new_256(key: &[u8; 32]) -> Aes {
        Aes::expanded(key, 14)
    }

    /// FIPS 197, Algorithm 2 (KeyExpansion).
    fn expanded(key: &[u8], rounds: usize) -> Aes {
        let nk = key.len() / 4;
        let mut words: Vec<[u8; 4]> = key.chunks(4).map(|w| [w[0], w[1], w[2], w[3]]).collect();
        let mut constant = 1;
        for i in nk..4 * (rounds + 1) {
            let mut word = words[i - 1];
            if i % nk == 0 {
                word.rotate_left(1);
                word = word.map(|byte| S_BOX[byte as usize]);
                word[0] ^= constant;
                constant = times_x(constant);
            } else if nk > 6 && i % nk == 4 {
                word = word.map(|byte| S_BOX[byte as usize]);
            }
            let earlier = words[i - nk];
            words.push(std::array::from_fn(|b| word[b] ^ earlier[b]));
        }
        let round_key = |w: &[[u8; 4]]| std::array::from_fn(|b| w[b / 4][b % 4]);
        let round_keys: Vec<Block> = words.chunks(4).map(round_key).collect();
        let columns = round_keys.iter().map(columns).collect();
        Aes { round_keys, columns }
    }

    pub fn encrypt(&self, block: &Block) -> Block {
        let last = self.round_keys.len() - 1;
        let mut state = columns(&with_key(block, &self.round_keys[0]));
        for key in &self.columns[1..last] {
            // Row r of column c comes from column c + r: ShiftRows.
            state = std::array::from_fn(|c| {
                let mixed = |r: usize| MIXED[(state[(c + r) % 4] >> (8 * r)) as usize & 0xFF];
                mixed(0)
                    ^ mixed(1).rotate_left(8)
                    ^ mixed(2).rotate_left(16)
                    ^ mixed(3).rotate_left(24)
                    ^ key[c]
            });
        }
        let state: Block = std::array::from_fn(|at| state[at / 4].to_le_bytes()[at % 4]);
        with_key(&shift_rows(&sub_bytes(&state)), &self.round_keys[last])
    }

    /// `length` bytes of counter mode over zero plaintext, from the zero block on.
    pub fn counter_stream(&self, length: usize) -> Vec<u8> {
        let mut counter: Block = [0; BLOCK];
        let mut output = Vec::with_capacity(length + BLOCK);
        while output.len() < length {
            output.extend_from_slice(&self.encrypt(&counter));
            increment(&mut counter);
        }
        output.truncate(length);
        output
    }
}

/// Adds one to a block that holds a number, the most significant byte first.
pub fn increment(counter: &mut Block) {
    for byte in counter.iter_mut().rev() {
        *byte = byte.wrapping_add(1);
        if *byte != 0 {
            return;
        }
    }
}

fn with_key(state: &Block, key: &Block) -> Block {
    std::array::from_fn(|at| state[at] ^ key[at])
}

fn sub_bytes(state: &Block) -> Block {
    state.map(|byte| S_BOX[byte as usize])
}

/// Byte r + 4 c is row r of column c. Row r turns left by r places.
fn shift_rows(state: &Block) -> Block {
    std::array::from_fn(|at| state[(at + 4 * (at % 4)) % BLOCK])
}

/// The columns of a block, row 0 in the lowest byte.
fn columns(block: &Block) -> [u32; 4] {
    std::array::from_fn(|c| u32::from_le_bytes(std::array::from_fn(|r| block[4 * c + r])))
}
