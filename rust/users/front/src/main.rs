//! Makes a pair over a toy XOF, which is no hash function. Its output has as many bytes as the variable `FRONT` says.

use fips204::xofs::{KeyGen, Xof, XofReader, ml_dsa_44::KG};

struct Toy {
    state: u64,
    left: usize,
}

impl Toy {
    fn step(&mut self, byte: u8) -> u8 {
        self.state = (self.state ^ u64::from(byte)).wrapping_mul(6364136223846793005);
        self.state = self.state.rotate_left(29).wrapping_add(1442695040888963407);
        (self.state >> 56) as u8
    }
}

impl XofReader for Toy {
    fn left(&self) -> usize {
        self.left
    }

    fn read(&mut self, out: &mut [u8]) {
        self.left -= out.len();
        out.fill_with(|| self.step(0));
    }
}

impl Xof for Toy {
    type Reader = Toy;
    const FRONT: usize = match option_env!("FRONT") {
        Some(front) => match usize::from_str_radix(front, 10) {
            Ok(front) => front,
            Err(_) => panic!("FRONT is no number"),
        },
        None => 4096,
    };

    fn open(parts: &[&[u8]]) -> Toy {
        let (state, left) = (0, Self::FRONT);
        let mut toy = Toy { state, left };
        for byte in parts.iter().flat_map(|part| part.iter()) {
            toy.step(*byte);
        }
        toy
    }
}

fn main() {
    let made = KG::<Toy, Toy>::keygen_from_seed(&[7; 32]);
    println!(
        "{}: {}",
        Toy::FRONT,
        if made.is_ok() { "a pair" } else { "none" }
    );
}
