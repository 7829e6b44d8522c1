//! What keys, and the calls on private keys in PEM, leave in memory that they give back: nothing of the key.

#![cfg(all(feature = "ml-dsa-65-bare", feature = "default-rng"))]

use fips204::ml_dsa_65::{KG, PrivateKey, Seed};
use fips204::traits::KeyGen;
use std::alloc::{GlobalAlloc, Layout, System};
use std::cell::Cell;
use std::hint::black_box;

const PART: usize = 16;

thread_local! {
    /// What this thread's blocks may not have when they are given back.
    static SECRETS: Cell<Option<[[u8; PART]; 2]>> = const { Cell::new(None) };
    /// How many of them had it.
    static LEFT: Cell<usize> = const { Cell::new(0) };
}

/// Looks into each block that is given back. Those that grow are given back too, since `realloc` is the trait's own.
struct Watched;

#[global_allocator]
static WATCHED: Watched = Watched;

// SAFETY: it hands on to the system's allocator. A block is zeros at first, so that each byte of it may be read.
unsafe impl GlobalAlloc for Watched {
    unsafe fn alloc(&self, layout: Layout) -> *mut u8 {
        // SAFETY: the caller's layout.
        unsafe { System.alloc_zeroed(layout) }
    }

    unsafe fn dealloc(&self, block: *mut u8, layout: Layout) {
        if let Some(secrets) = SECRETS.get() {
            // SAFETY: the block is the caller's until the next call.
            let bytes = unsafe { std::slice::from_raw_parts(block, layout.size()) };
            let has = |secret: &[u8; PART]| bytes.windows(PART).any(|it| it == secret);
            LEFT.set(LEFT.get() + usize::from(secrets.iter().any(has)));
        }
        // SAFETY: the caller's block and layout.
        unsafe { System.dealloc(block, layout) }
    }
}

/// How many blocks with a secret a call gives back, and what it returns.
fn left<T>(secrets: [[u8; PART]; 2], call: impl FnOnce() -> T) -> (usize, T) {
    LEFT.set(0);
    SECRETS.set(Some(secrets));
    let returned = call();
    SECRETS.set(None);
    (LEFT.get(), returned)
}

fn part(bytes: &[u8], from: usize) -> [u8; PART] {
    bytes[from..from + PART].try_into().unwrap()
}

/// Every block counts that has one of them, that of a text which grew too.
#[test]
fn what_is_left_is_found() {
    let secrets = [*b"0123456789abcdef", *b"ghijklmnopqrstuv"];
    for secret in secrets {
        assert_eq!(left(secrets, || drop(black_box(secret.to_vec()))).0, 1);
        let grown = left(secrets, || {
            let mut bytes = secret.to_vec();
            bytes.reserve(1000);
            black_box(bytes)
        });
        assert_eq!(grown.0, 1);
    }
    assert_eq!(left(secrets, || drop(black_box(vec![7; 100]))).0, 0);
}

/// A key that is dropped is overwritten before its memory is given back: where it has a place of its own, and where it is a part of
/// something else. A copy that nobody overwrites is found.
#[test]
fn dropped_keys_leave_nothing() {
    let (public, private) = KG::keygen_from_seed(&[7; 32]);
    let (checks, signs) = (public.prepare(), private.prepare());
    let of_keys = [part(public.as_bytes(), 100), part(private.as_bytes(), 36)];
    assert_eq!(
        left(of_keys, || drop(black_box(Box::new(public.to_bytes())))).0,
        1
    );
    assert_eq!(
        left(of_keys, || drop(black_box(private.as_bytes().to_vec()))).0,
        1
    );

    assert_eq!(
        left(of_keys, || drop(black_box(Box::new(public.clone())))).0,
        0
    );
    assert_eq!(left(of_keys, || drop(black_box(private.clone()))).0, 0);
    assert_eq!(left(of_keys, || drop(black_box(checks.clone()))).0, 0);
    assert_eq!(left(of_keys, || drop(black_box(signs.clone()))).0, 0);
    assert_eq!(left(of_keys, || drop(black_box(signs.key()))).0, 0);
}

/// Neither bytes of the seed or of the part K of the key, nor characters of its text.
#[test]
fn pem_leaves_nothing() {
    let seed: [u8; 32] = std::array::from_fn(|i| i as u8);
    let of_seed = [part(&seed, 8), *b"CAkKCwwNDg8QERIT"];
    let made = || drop(black_box(Seed::from_bytes(black_box(&seed)).clone()));
    assert_eq!(left(of_seed, made).0, 0);
    let (count, text) = left(of_seed, || Seed::from_bytes(&seed).to_pem().unwrap());
    assert_eq!((count, text.contains("CAkKCwwNDg8QERIT")), (0, true));
    let damaged = text.replace("HR4f", "HR4!");
    for file in [
        &text,
        &text.replace('\n', "\r\n"),
        &damaged,
        &text[..90].into(),
    ] {
        assert_eq!(left(of_seed, || PrivateKey::from_pem(file)).0, 0);
        assert_eq!(left(of_seed, || drop(Seed::from_pem(file))).0, 0);
    }

    let (_, private) = KG::keygen_from_seed(&seed);
    let text = private.to_pem().unwrap();
    // The second line begins with byte 20 of the key.
    let of_key = [
        part(private.as_bytes(), 36),
        part(text.as_bytes(), 28 + 65 + 20),
    ];
    assert_eq!(left(of_key, || private.to_pem()).0, 0);
    for file in [&text, &text[..text.len() - 1].into()] {
        assert_eq!(left(of_key, || PrivateKey::from_pem(file)).0, 0);
    }
}
