//! Makes, moves and drops private keys, and prints whether a copy of a part of them is then on the stack: first of a key in an array,
//! which has to be found, then of keys of this crate. What the calls that make a key leave below the function that has it counts for
//! none: the library wipes no stack of its own.

use fips204::ml_dsa_65::{KG, PrivateKey, SK_LEN};
use fips204::traits::{KeyGen, SerDes};
use std::hint::black_box;

/// As much of the stack is looked through, below the frame of `main`.
const DEPTH: usize = 256 << 10;
const PART: usize = 16;

#[inline(never)]
fn moved<T>(value: T) -> T {
    *black_box(Box::new(black_box(Some(value)).unwrap()))
}

/// A way to have a key of these bytes.
#[derive(Clone, Copy)]
enum Way {
    Array,
    Slice,
    Bytes,
    Seed,
}

#[inline(never)]
fn had(bytes: &[u8], way: Way) {
    let key = match way {
        Way::Array => {
            let array: [u8; SK_LEN] = bytes.try_into().unwrap();
            drop(black_box(moved(array).to_vec()));
            return;
        }
        Way::Slice => PrivateKey::try_from(bytes).unwrap(),
        Way::Bytes => {
            let mut array = [0; SK_LEN];
            array.copy_from_slice(bytes);
            let key = PrivateKey::try_from_bytes(array).unwrap();
            black_box(&mut array).fill(0);
            key
        }
        Way::Seed => KG::keygen_from_seed(&[7; 32]).1,
    };
    cleared();
    drop(moved(moved(key)));
}

#[inline(never)]
fn cleared() {
    black_box([0u8; DEPTH]);
}

/// How often bytes, each of which is told with its bits turned round, are on the stack below.
#[inline(never)]
fn found(turned: &[u8; PART]) -> usize {
    let here = 0u8;
    let top = black_box(&raw const here) as usize - 512;
    let at = |place: usize| {
        // SAFETY: the thread's stack reaches further down, since `cleared` has written it; what is there is bytes.
        unsafe { (place as *const u8).read_volatile() }
    };
    (top - DEPTH / 2..top)
        .filter(|place| (0..PART).all(|i| at(place + i) == !turned[i]))
        .count()
}

fn main() {
    let (_, key) = KG::keygen_from_seed(&[7; 32]);
    let bytes = key.as_bytes().to_vec();
    let copies = [Way::Array, Way::Slice, Way::Bytes, Way::Seed].map(|way| {
        let parts = (0..SK_LEN - PART).step_by(500);
        let left = parts.map(|from| {
            let turned = std::array::from_fn(|i| !bytes[from + i]);
            cleared();
            had(&bytes, way);
            found(&turned)
        });
        left.sum::<usize>().min(1).to_string()
    });
    println!("{}", copies.join(" "));
}
