//! The permutation `Keccak-f[1600]` (FIPS 202, section 3), on 25 lanes; lane x + 5 y is `A[x, y]`.

const ROUNDS: usize = 24;

/// The round constants, by the linear feedback register of FIPS 202, Algorithm 5.
static CONSTANTS: [u64; ROUNDS] = round_constants();

/// How far rho turns each lane, by FIPS 202, Algorithm 2.
const OFFSETS: [u32; 25] = rho_offsets();

const fn round_constants() -> [u64; ROUNDS] {
    let mut constants = [0; ROUNDS];
    let mut register: u16 = 1;
    let mut round = 0;
    while round < ROUNDS {
        let mut j = 0;
        while j < 7 {
            if register & 1 == 1 {
                constants[round] |= 1 << ((1u32 << j) - 1);
            }
            register <<= 1;
            if register & 0x100 != 0 {
                register ^= 0x171;
            }
            j += 1;
        }
        round += 1;
    }
    constants
}

const fn rho_offsets() -> [u32; 25] {
    let mut offsets = [0; 25];
    let (mut x, mut y) = (1, 0);
    let mut t = 0;
    while t < 24 {
        offsets[x + 5 * y] = (t + 1) * (t + 2) / 2 % 64;
        (x, y) = (y, (2 * x + 3 * y) % 5);
        t += 1;
    }
    offsets
}

/// The 24 rounds: theta, rho and pi, chi, iota. The loops over x and y have fixed bounds and no
/// index that depends on the state, so that they are unrolled.
pub fn permute(state: &mut [u64; 25]) {
    let mut a = *state;
    for constant in CONSTANTS {
        // theta: the parities of two columns go onto every lane of the one between them
        let mut column = [0; 5];
        for x in 0..5 {
            column[x] = a[x] ^ a[x + 5] ^ a[x + 10] ^ a[x + 15] ^ a[x + 20];
        }
        let mut change = [0; 5];
        for x in 0..5 {
            change[x] = column[(x + 4) % 5] ^ column[(x + 1) % 5].rotate_left(1);
        }
        // rho and pi: lane (x, y), turned, goes to (y, 2 x + 3 y)
        let mut turned = [0; 25];
        for y in 0..5 {
            for x in 0..5 {
                let lane = a[x + 5 * y] ^ change[x];
                turned[y + 5 * ((2 * x + 3 * y) % 5)] = lane.rotate_left(OFFSETS[x + 5 * y]);
            }
        }
        // chi, row by row
        for y in 0..5 {
            for x in 0..5 {
                let (next, after) = (turned[(x + 1) % 5 + 5 * y], turned[(x + 2) % 5 + 5 * y]);
                a[x + 5 * y] = turned[x + 5 * y] ^ (!next & after);
            }
        }
        a[0] ^= constant;
    }
    *state = a;
}
