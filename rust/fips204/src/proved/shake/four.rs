// Made by tools/erase of crates/shake/src/four.rt. Change that, not this.
//! Keccak-f[1600] on four states side by side: lane by lane, that of each state.

use crate::proved::shake::blocks::write_block;
use crate::proved::shake::permutation::{ROUND_CONSTANTS, effects, plane, round};

/// Writes four states side by side.
#[inline(always)]
pub(crate) fn write_beside(
    a: &[u64; 25],
    b: &[u64; 25],
    c: &[u64; 25],
    d: &[u64; 25],
    states: &mut [[u64; 4]; 25],
) {
    for index in 0..25 {
        states[index] = [a[index], b[index], c[index], d[index]];
    }
}

/// State `j` of four.
#[inline(always)]
pub(crate) fn state_at(states: &[[u64; 4]; 25], j: usize) -> [u64; 25] {
    let mut state = [0; 25];
    for index in 0..25 {
        state[index] = states[index][j];
    }
    state
}

/// Writes the first bytes of state `j`.
#[inline(always)]
pub(crate) fn write_block_of(states: &[[u64; 4]; 25], j: usize, block: &mut [u8]) {
    write_block(&state_at(states, j), block);
}

/// Writes a lane of state `j`.
#[inline(always)]
fn write_lane(states: &mut [[u64; 4]; 25], j: usize, place: usize, lane: u64) {
    states[place][j] = lane;
}

/// Writes the lanes (0, y) to (4, y) of state `j`.
#[inline(always)]
fn write_plane(states: &mut [[u64; 4]; 25], j: usize, y: usize, lanes: [u64; 5]) {
    let [e0, e1, e2, e3, e4] = lanes;
    write_lane(states, j, 5 * y, e0);
    write_lane(states, j, 5 * y + 1, e1);
    write_lane(states, j, 5 * y + 2, e2);
    write_lane(states, j, 5 * y + 3, e3);
    write_lane(states, j, 5 * y + 4, e4);
}

/// Two rounds of each state, written plane by plane. The compiler takes as many states at a time as a vector of the processor
/// has lanes.
#[inline(always)]
fn two_rounds(states: &mut [[u64; 4]; 25], first: u64, second: u64) {
    for j in 0..4 {
        let a = round(&state_at(states, j), first);
        let d = effects(&a);
        let [e0, e1, e2, e3, e4] = plane(&a, &d, 0);
        write_plane(states, j, 0, [e0 ^ second, e1, e2, e3, e4]);
        write_plane(states, j, 1, plane(&a, &d, 1));
        write_plane(states, j, 2, plane(&a, &d, 2));
        write_plane(states, j, 3, plane(&a, &d, 3));
        write_plane(states, j, 4, plane(&a, &d, 4));
    }
}

crate::levels::with_avx2! {
    /// The permutation Keccak-f[1600] of each state. The rounds are a loop: 24 of them one after the other are more instructions
    /// than the processor keeps at hand, and take longer.
    pub(crate) fn f1600x4(states: &mut [[u64; 4]; 25]) {
        for pair in 0..12 {
            two_rounds(
                states,
                ROUND_CONSTANTS[2 * pair],
                ROUND_CONSTANTS[2 * pair + 1],
            );
        }
    }
}

/// The permutation Keccak-f[1600] of each of four states.
pub fn f1600_four(a: &mut [u64; 25], b: &mut [u64; 25], c: &mut [u64; 25], d: &mut [u64; 25]) {
    let mut states = [[0; 4]; 25];
    write_beside(a, b, c, d, &mut states);
    f1600x4(&mut states);
    *a = state_at(&states, 0);
    *b = state_at(&states, 1);
    *c = state_at(&states, 2);
    *d = state_at(&states, 3);
}
