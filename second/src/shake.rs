//! SHAKE256 (FIPS 202).
//!
//! The tables of the permutation are computed from their rules rather than
//! copied, so that a miscopied entry cannot hide here.

/// Bytes taken in or given out between two permutations.
pub const RATE: usize = 136;

const ROUNDS: usize = 24;
const LANES: usize = 25;

/// Lane (x, y) is kept at x + 5y.
type State = [u64; LANES];

/// The round constants, from the shift register of FIPS 202, Algorithm 5.
const ROUND_CONSTANTS: [u64; ROUNDS] = {
    let mut constants = [0u64; ROUNDS];
    let mut register: u8 = 1;
    let mut round = 0;
    while round < ROUNDS {
        let mut j = 0;
        while j <= 6 {
            if register & 1 == 1 {
                constants[round] |= 1 << ((1u32 << j) - 1);
            }
            // Times x, modulo x^8 + x^6 + x^5 + x^4 + 1.
            register = if register & 0x80 != 0 { (register << 1) ^ 0x71 } else { register << 1 };
            j += 1;
        }
        round += 1;
    }
    constants
};

/// The walk of rho and pi, which visit the 24 lanes other than (0, 0) in the
/// same order: each entry is the lane that is written and how far its new
/// content is turned. What the lane held before goes to the next entry.
const WALK: [(usize, u32); 24] = {
    let mut walk = [(0, 0); 24];
    let (mut x, mut y) = (1, 0);
    let mut t = 0;
    while t < 24 {
        let turn = ((t + 1) * (t + 2) / 2 % 64) as u32;
        (x, y) = (y, (2 * x + 3 * y) % 5);
        walk[t] = (x + 5 * y, turn);
        t += 1;
    }
    walk
};

fn permute(state: &mut State) {
    for constant in ROUND_CONSTANTS {
        // Theta.
        let mut column = [0u64; 5];
        for x in 0..5 {
            column[x] = state[x] ^ state[x + 5] ^ state[x + 10] ^ state[x + 15] ^ state[x + 20];
        }
        for x in 0..5 {
            let change = column[(x + 4) % 5] ^ column[(x + 1) % 5].rotate_left(1);
            for y in 0..5 {
                state[x + 5 * y] ^= change;
            }
        }
        // Rho and pi.
        let mut carried = state[1];
        for (lane, turn) in WALK {
            (carried, state[lane]) = (state[lane], carried.rotate_left(turn));
        }
        // Chi.
        for y in 0..5 {
            let row = [state[5 * y], state[5 * y + 1], state[5 * y + 2], state[5 * y + 3], state[5 * y + 4]];
            for x in 0..5 {
                state[x + 5 * y] = row[x] ^ (!row[(x + 1) % 5] & row[(x + 2) % 5]);
            }
        }
        // Iota.
        state[0] ^= constant;
    }
}

/// Takes the input in parts.
pub struct Absorb {
    state: State,
    block: [u8; RATE],
    /// Bytes of the block already filled; below RATE between calls.
    filled: usize,
}

impl Absorb {
    pub fn new() -> Absorb {
        Absorb { state: [0; LANES], block: [0; RATE], filled: 0 }
    }

    /// Takes in one more part. Parts join without a mark between them.
    pub fn part(mut self, mut part: &[u8]) -> Absorb {
        while !part.is_empty() {
            let (now, later) = part.split_at(part.len().min(RATE - self.filled));
            self.block[self.filled..self.filled + now.len()].copy_from_slice(now);
            self.filled += now.len();
            if self.filled == RATE {
                self.take_block();
            }
            part = later;
        }
        self
    }

    /// Ends the input.
    pub fn done(mut self) -> Squeeze {
        // The suffix 1111 of SHAKE, then the first one of the padding.
        self.block[self.filled] = 0x1f;
        self.block[self.filled + 1..].fill(0);
        // The last one of the padding. It may fall in the same byte.
        self.block[RATE - 1] |= 0x80;
        self.take_block();
        Squeeze { state: self.state, block: first_block(&self.state), given: 0 }
    }

    fn take_block(&mut self) {
        for (lane, bytes) in self.state.iter_mut().zip(self.block.chunks_exact(8)) {
            let mut number = [0; 8];
            number.copy_from_slice(bytes);
            *lane ^= u64::from_le_bytes(number);
        }
        permute(&mut self.state);
        self.filled = 0;
    }
}

impl Default for Absorb {
    fn default() -> Absorb {
        Absorb::new()
    }
}

/// The bytes that a state gives out.
fn first_block(state: &State) -> [u8; RATE] {
    let mut block = [0; RATE];
    for (bytes, lane) in block.chunks_exact_mut(8).zip(state) {
        bytes.copy_from_slice(&lane.to_le_bytes());
    }
    block
}

/// Gives the output in parts.
pub struct Squeeze {
    state: State,
    block: [u8; RATE],
    /// Bytes of the block already given out.
    given: usize,
}

impl Squeeze {
    /// Fills `out` with the next bytes of the output.
    pub fn next(&mut self, mut out: &mut [u8]) {
        while !out.is_empty() {
            if self.given == RATE {
                permute(&mut self.state);
                self.block = first_block(&self.state);
                self.given = 0;
            }
            let length = out.len().min(RATE - self.given);
            let (now, later) = out.split_at_mut(length);
            now.copy_from_slice(&self.block[self.given..self.given + length]);
            self.given += length;
            out = later;
        }
    }
}

/// Fills `out` with the first bytes of SHAKE256 on `input`.
pub fn shake256(input: &[u8], out: &mut [u8]) {
    shake256_parts(&[input], out);
}

/// Fills `out` with the first bytes of SHAKE256 on the parts, joined.
pub fn shake256_parts(parts: &[&[u8]], out: &mut [u8]) {
    let mut absorb = Absorb::new();
    for part in parts {
        absorb = absorb.part(part);
    }
    absorb.done().next(out);
}
