//! GF(16): polynomials over GF(2) modulo x^4 + x + 1, by the paper's list of powers of 2.

/// The powers of 2, from the zeroth to the fourteenth (section 1.8).
pub const POWERS: [u8; 15] = [1, 2, 4, 8, 3, 6, 12, 11, 5, 10, 7, 14, 15, 13, 9];

/// The product of a and b stands at 16 a + b.
static PRODUCTS: [u8; 256] = products();

static INVERSES: [u8; 16] = inverses();

const fn products() -> [u8; 256] {
    let mut table = [0; 256];
    let mut i = 0;
    while i < 15 {
        let mut j = 0;
        while j < 15 {
            table[POWERS[i] as usize * 16 + POWERS[j] as usize] = POWERS[(i + j) % 15];
            j += 1;
        }
        i += 1;
    }
    table
}

/// The inverse of 0 is 0, as in document 003's table.
const fn inverses() -> [u8; 16] {
    let mut table = [0; 16];
    let mut i = 0;
    while i < 15 {
        table[POWERS[i] as usize] = POWERS[(15 - i) % 15];
        i += 1;
    }
    table
}

pub fn add(a: u8, b: u8) -> u8 {
    a ^ b
}

pub fn mul(a: u8, b: u8) -> u8 {
    PRODUCTS[(a << 4 | b) as usize]
}

pub fn inverse(a: u8) -> u8 {
    INVERSES[a as usize]
}
