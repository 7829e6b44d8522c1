// Made by tools/erase of crates/shake/src/blocks.rt. Change that, not this.
//! Blocks of bytes, into and out of a state.

/// Copies from `source` as many bytes as `out` takes, and returns how many.
pub(crate) fn write_run(source: &[u8], out: &mut [u8]) -> usize {
    let count = source.len().min(out.len());
    out[..count].copy_from_slice(&source[..count]);
    count
}

/// Lane `index` of a block.
#[inline(always)]
fn block_lane(block: &[u8], index: usize) -> u64 {
    let at = 8 * index;
    u64::from_le_bytes([
        block[at],
        block[at + 1],
        block[at + 2],
        block[at + 3],
        block[at + 4],
        block[at + 5],
        block[at + 6],
        block[at + 7],
    ])
}

/// Adds a block to the state.
#[inline(always)]
pub(crate) fn add_block(state: &mut [u64; 25], block: &[u8]) {
    for index in 0..block.len() / 8 {
        state[index] ^= block_lane(block, index);
    }
}

/// Writes the first bytes of the state.
#[inline(always)]
pub(crate) fn write_block(state: &[u64; 25], block: &mut [u8]) {
    for index in 0..block.len() / 8 {
        let at = 8 * index;
        block[at..at + 8].copy_from_slice(&state[index].to_le_bytes());
    }
}

/// Pads a block in which `used` bytes are of the message.
pub(crate) fn pad(block: &mut [u8], used: usize) {
    let last = block.len() - 1;
    block[used..].fill(0);
    block[used] = 0x1f;
    block[last] |= 0x80;
}
