// Made by tools/erase of crates/shake/src/sponge.rt. Change that, not this.
//! SHAKE128 and SHAKE256 (FIPS 202, section 6.2), piece by piece.

use crate::proved::shake::blocks::{add_block, pad, write_block, write_run};
use crate::proved::shake::four::{f1600_four, f1600x4, state_at, write_beside, write_block_of};
use crate::proved::shake::permutation::f1600;

/// SHAKE with blocks of `R` bytes, which takes its message piece by piece. Contracts say by `Holds hasher m` that the message
/// taken so far is `m`.
pub struct Shake<const R: usize> {
    lanes: [u64; 25],
    /// The bytes after the last whole block, and then any.
    block: [u8; R],
    used: usize,
}

/// SHAKE128.
pub type Shake128 = Shake<168>;

/// SHAKE256.
pub type Shake256 = Shake<136>;

/// A reader of the output of SHAKE128.
pub type Shake128Reader = ShakeReader<168>;

/// A reader of the output of SHAKE256.
pub type Shake256Reader = ShakeReader<136>;

impl<const R: usize> Shake<R> {
    /// A hasher of the empty message.
    pub fn new() -> Shake<R> {
        Shake {
            lanes: [0; 25],
            block: [0; R],
            used: 0,
        }
    }

    /// Adds `input` to the end of the message.
    pub fn update(&mut self, input: &[u8]) {
        let mut taken = 0;
        while taken < input.len() {
            taken += self.update_run(&input[taken..]);
        }
    }

    /// Adds bytes of the start of `input` to the message, and returns how many these are.
    fn update_run(&mut self, input: &[u8]) -> usize {
        // A part with a start is taken of a slice: the length of the array is a parameter.
        let block = &mut self.block[..];
        let count = write_run(input, &mut block[self.used..]);
        let used = self.used + count;
        if used == R {
            add_block(&mut self.lanes, &self.block);
            f1600(&mut self.lanes);
            self.used = 0;
        } else {
            self.used = used;
        }
        count
    }

    /// A reader of the output for the message. A block of output costs nothing until a byte of it is read.
    pub fn finalize_xof(self) -> ShakeReader<R> {
        let mut lanes = self.lanes;
        let mut block = self.block;
        pad(&mut block, self.used);
        add_block(&mut lanes, &block);
        ShakeReader {
            lanes,
            block,
            given: R,
        }
    }

    /// Writes the hasher as bytes, from which `restore` makes it again: 200 of its lanes, `R` of its block, and one that is one
    /// more than `used`, so that no hasher is saved as zeros.
    pub fn save(&self, out: &mut [u8]) {
        let (lanes, rest) = out.split_at_mut(200);
        let (block, count) = rest.split_at_mut(R);
        write_block(&self.lanes, lanes);
        block.copy_from_slice(&self.block);
        count.copy_from_slice(&[self.used as u8 + 1]);
    }

    /// The hasher of these bytes, or none if no hasher has them: if their last one is 0 or above `R`.
    pub fn restore(saved: &[u8]) -> Option<Shake<R>> {
        let (front, rest) = saved.split_at(200);
        let count = rest[R] as usize;
        if count == 0 || count > R {
            return None;
        }
        let mut lanes = [0u64; 25];
        add_block(&mut lanes, front);
        let mut block = [0u8; R];
        block.copy_from_slice(&rest[..R]);
        Some(Shake {
            lanes,
            block,
            used: count - 1,
        })
    }

    /// Fills `out` with the first bytes of output for the message `input`.
    pub fn digest_xof(input: &[u8], out: &mut [u8]) {
        let mut reader = Shake::<R>::reader(input);
        reader.read(out);
    }

    /// A reader of the output for the message `input`.
    pub fn reader(input: &[u8]) -> ShakeReader<R> {
        let mut hasher = Shake::<R>::new();
        hasher.update(input);
        hasher.finalize_xof()
    }

    /// Fills four outputs with the first bytes of output for four messages, as `digest_xof` of each does, side by side.
    pub fn digest_four<const N: usize>(
        a: &[u8],
        b: &[u8],
        c: &[u8],
        d: &[u8],
        to_a: &mut [u8; N],
        to_b: &mut [u8; N],
        to_c: &mut [u8; N],
        to_d: &mut [u8; N],
    ) {
        let mut a = Shake::<R>::reader(a);
        let mut b = Shake::<R>::reader(b);
        let mut c = Shake::<R>::reader(c);
        let mut d = Shake::<R>::reader(d);
        ShakeReader::<R>::read_four(&mut a, &mut b, &mut c, &mut d, to_a, to_b, to_c, to_d);
    }
}

/// A reader of output. In contracts `next reader d` are its next `d` bytes.
pub struct ShakeReader<const R: usize> {
    /// The state that has given `block`: the next block is made when a byte of it is read.
    lanes: [u64; 25],
    block: [u8; R],
    /// How many bytes of `block` are given.
    given: usize,
}

impl<const R: usize> ShakeReader<R> {
    /// Fills `out` with the next bytes.
    pub fn read(&mut self, out: &mut [u8]) {
        let mut filled = 0;
        while filled < out.len() {
            filled += self.read_run(&mut out[filled..]);
        }
    }

    /// Fills the start of `out` with bytes of one block, and returns how many these are.
    fn read_run(&mut self, out: &mut [u8]) -> usize {
        if self.given == R {
            f1600(&mut self.lanes);
            write_block(&self.lanes, &mut self.block);
            self.given = 0;
        }
        let block = &self.block[..];
        let count = write_run(&block[self.given..], out);
        self.given += count;
        count
    }

    /// Fills the outputs with the next bytes of four readers, as `read` of each does. The outputs are of one length; or the fourth
    /// is empty, if only three are wanted. Blocks that begin together are made side by side.
    pub fn read_four(
        a: &mut ShakeReader<R>,
        b: &mut ShakeReader<R>,
        c: &mut ShakeReader<R>,
        d: &mut ShakeReader<R>,
        to_a: &mut [u8],
        to_b: &mut [u8],
        to_c: &mut [u8],
        to_d: &mut [u8],
    ) {
        if a.given == R
            && b.given == R
            && c.given == R
            && d.given == R
            && to_d.len() == to_a.len()
        {
            ShakeReader::<R>::read_beside(a, b, c, d, to_a, to_b, to_c, to_d);
        } else {
            ShakeReader::<R>::read_in_turn(a, b, c, d, to_a, to_b, to_c, to_d);
        }
    }

    /// `read_four`, block by block.
    fn read_in_turn(
        a: &mut ShakeReader<R>,
        b: &mut ShakeReader<R>,
        c: &mut ShakeReader<R>,
        d: &mut ShakeReader<R>,
        to_a: &mut [u8],
        to_b: &mut [u8],
        to_c: &mut [u8],
        to_d: &mut [u8],
    ) {
        let mut filled = 0;
        while filled < to_a.len() {
            let end = filled + R.min(to_a.len() - filled);
            ShakeReader::<R>::refill_four(a, b, c, d);
            a.read(&mut to_a[filled..end]);
            b.read(&mut to_b[filled..end]);
            c.read(&mut to_c[filled..end]);
            let start = filled.min(to_d.len());
            let stop = end.min(to_d.len());
            d.read(&mut to_d[start..stop]);
            filled = end;
        }
    }

    /// `read_four` of readers that have given their blocks, whose states stay side by side until all is read.
    fn read_beside(
        a: &mut ShakeReader<R>,
        b: &mut ShakeReader<R>,
        c: &mut ShakeReader<R>,
        d: &mut ShakeReader<R>,
        to_a: &mut [u8],
        to_b: &mut [u8],
        to_c: &mut [u8],
        to_d: &mut [u8],
    ) {
        let mut states = [[0; 4]; 25];
        write_beside(&a.lanes, &b.lanes, &c.lanes, &d.lanes, &mut states);
        let size = to_a.len();
        let mut done = 0;
        while size - done >= R {
            f1600x4(&mut states);
            write_block_of(&states, 0, &mut to_a[done..done + R]);
            write_block_of(&states, 1, &mut to_b[done..done + R]);
            write_block_of(&states, 2, &mut to_c[done..done + R]);
            write_block_of(&states, 3, &mut to_d[done..done + R]);
            done += R;
        }
        ShakeReader::<R>::go_on(a, b, c, d, &mut states, done < size);
        a.read(&mut to_a[done..size]);
        b.read(&mut to_b[done..size]);
        c.read(&mut to_c[done..size]);
        d.read(&mut to_d[done..size]);
    }

    /// Four readers go on from states side by side, which have given their blocks. The next blocks are made here if they are
    /// `wanted`.
    fn go_on(
        a: &mut ShakeReader<R>,
        b: &mut ShakeReader<R>,
        c: &mut ShakeReader<R>,
        d: &mut ShakeReader<R>,
        states: &mut [[u64; 4]; 25],
        wanted: bool,
    ) {
        if wanted {
            f1600x4(states);
            a.begin_state(states, 0);
            b.begin_state(states, 1);
            c.begin_state(states, 2);
            d.begin_state(states, 3);
        } else {
            a.lanes = state_at(states, 0);
            b.lanes = state_at(states, 1);
            c.lanes = state_at(states, 2);
            d.lanes = state_at(states, 3);
        }
    }

    /// Makes the next blocks of four readers side by side, when the first three have given their last ones. The fourth one's is
    /// dropped if it has not. What a reader gives next stays the same.
    fn refill_four(
        a: &mut ShakeReader<R>,
        b: &mut ShakeReader<R>,
        c: &mut ShakeReader<R>,
        d: &mut ShakeReader<R>,
    ) {
        if a.given == R && b.given == R && c.given == R {
            let mut fourth = d.lanes;
            f1600_four(&mut a.lanes, &mut b.lanes, &mut c.lanes, &mut fourth);
            a.begin_block();
            b.begin_block();
            c.begin_block();
            d.begin_if_given(&fourth);
        }
    }

    /// Takes state `j` of four, which were permuted, and its block.
    fn begin_state(&mut self, states: &[[u64; 4]; 25], j: usize) {
        self.lanes = state_at(states, j);
        self.begin_block();
    }

    /// Takes the block of the lanes in hand, which were permuted.
    fn begin_block(&mut self) {
        write_block(&self.lanes, &mut self.block);
        self.given = 0;
    }

    /// Takes the next block of `lanes`, its own lanes after a permutation, if the last one is given.
    fn begin_if_given(&mut self, lanes: &[u64; 25]) {
        if self.given == R {
            self.lanes = *lanes;
            self.begin_block();
        }
    }
}
