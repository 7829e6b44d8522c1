//! SHAKE128 for tests, which stand on no crate.

/// SHAKE128 (FIPS 202), byte by byte.
pub struct Shake128 {
    lanes: [u64; 25],
    at: usize,
}

impl Shake128 {
    const RATE: usize = 168;

    pub fn new() -> Self {
        Shake128 {
            lanes: [0; 25],
            at: 0,
        }
    }

    fn add(&mut self, at: usize, byte: u8) {
        self.lanes[at / 8] ^= u64::from(byte) << (8 * (at % 8));
    }

    fn advance(&mut self) {
        self.at += 1;
        if self.at == Self::RATE {
            self.permute();
            self.at = 0;
        }
    }

    pub fn update(&mut self, bytes: &[u8]) {
        for &byte in bytes {
            self.add(self.at, byte);
            self.advance();
        }
    }

    pub fn finish(&mut self) {
        self.add(self.at, 0x1F);
        self.add(Self::RATE - 1, 0x80);
        self.permute();
        self.at = 0;
    }

    pub fn read(&mut self, out: &mut [u8]) {
        for byte in out {
            *byte = (self.lanes[self.at / 8] >> (8 * (self.at % 8))) as u8;
            self.advance();
        }
    }

    /// Keccak-f[1600]. The round constants come from the standard's shift register, and the offsets from its walk.
    fn permute(&mut self) {
        let a = &mut self.lanes;
        let mut register = 1u8;
        for _ in 0..24 {
            let c: [u64; 5] = std::array::from_fn(|x| (0..5).fold(0, |sum, y| sum ^ a[x + 5 * y]));
            for i in 0..25 {
                a[i] ^= c[(i + 4) % 5] ^ c[(i + 1) % 5].rotate_left(1);
            }
            let (mut x, mut y, mut moved) = (1, 0, a[1]);
            for t in 0..24 {
                (x, y) = (y, (2 * x + 3 * y) % 5);
                moved =
                    std::mem::replace(&mut a[x + 5 * y], moved.rotate_left((t + 1) * (t + 2) / 2));
            }
            for row in a.chunks_mut(5) {
                let old: [u64; 5] = std::array::from_fn(|x| row[x]);
                for x in 0..5 {
                    row[x] = old[x] ^ (!old[(x + 1) % 5] & old[(x + 2) % 5]);
                }
            }
            for j in 0..7 {
                a[0] ^= u64::from(register & 1) << ((1 << j) - 1);
                register = (register << 1) ^ ((register >> 7) * 0x71);
            }
        }
    }
}
