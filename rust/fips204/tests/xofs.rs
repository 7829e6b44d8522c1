//! The keys and calls over XOFs of the caller's: over SHAKE they are those of the rest of the crate, and over others they work too.

use fips204::xofs::{
    AnySet, Buffer, Fault, Fill, FrontReader, Input, KeyGen, MlDsa44, MlDsa65, MlDsa87, Refusal,
    SerDes, SetName, Shake128Stream, Shake256Stream, Signer, Verifier, Xof, XofReader,
};

const NAMES: [SetName; 3] = [SetName::MlDsa44, SetName::MlDsa65, SetName::MlDsa87];
const INPUT: Input<'static> = Input::Message(b"a message", b"a context");

/// An XOF for tests: a sum of the input, and what a generator makes of it.
struct Sum;

impl Xof for Sum {
    type Reader = FrontReader<5000>;
    const FRONT: usize = 5000;

    fn open(parts: &[&[u8]]) -> FrontReader<5000> {
        let add = |sum: u64, byte: &u8| (sum ^ u64::from(*byte)).wrapping_mul(6364136223846793005);
        let mut state = parts.concat().iter().fold(1442695040888963407, add);
        FrontReader::new(std::array::from_fn(|_| {
            state = state.wrapping_mul(6364136223846793005).wrapping_add(1);
            (state >> 56) as u8
        }))
    }
}

/// A pair and a signature by the calls over bytes: of the set by its name.
fn made<H: Xof, G: Xof>(set: SetName) -> [Vec<u8>; 3] {
    let (mut public, mut private) = (
        vec![0; set.public_key_len()],
        vec![0; set.private_key_len()],
    );
    let mut signature = vec![0; set.signature_len()];
    AnySet::<H, G>::keygen(set, &[7; 32], &mut public, &mut private).unwrap();
    AnySet::<H, G>::sign(set, &private, &[9; 32], &INPUT, &mut signature).unwrap();
    [public, private, signature]
}

/// The same by the types of keys, which also verify it, and not another one.
fn made_by_types<K>() -> [Vec<u8>; 3]
where
    K: KeyGen,
    K::PublicKey: SerDes<ByteArray: AsRef<[u8]>>,
    K::PrivateKey: Signer<Signature: AsRef<[u8]>> + SerDes<ByteArray: AsRef<[u8]>>,
{
    let (public, private) = K::keygen_from_seed(&[7; 32]).unwrap();
    let signature = private
        .try_sign_with_seed(&[9; 32], b"a message", b"a context")
        .unwrap();
    assert!(public.verify(b"a message", &signature, b"a context"));
    assert!(!public.verify(b"another", &signature, b"a context"));
    [
        public.into_bytes().as_ref().to_vec(),
        private.into_bytes().as_ref().to_vec(),
        signature.as_ref().to_vec(),
    ]
}

macro_rules! tests_of_a_set {
    ($set:ident, $name:ident, $feature:literal) => {
        mod $set {
            use super::*;
            use fips204::xofs::$set::KG;

            #[test]
            fn types_and_calls_make_the_same() {
                type Calls = $name<Sum, Sum>;
                let all @ [public, private, signature] = &made::<Sum, Sum>(SetName::$name);
                assert_eq!(&made_by_types::<KG<Sum, Sum>>(), all);
                assert_eq!(Calls::verify(public, &INPUT, signature), Ok(true));
                assert_eq!(
                    Calls::verify(public, &Input::Framed(b"m"), signature),
                    Ok(false)
                );
                assert_eq!(Calls::is_pair(private), Ok(true));
                let mixed = &made::<Sum, Shake128Stream>(SetName::$name);
                assert_ne!(mixed[0], all[0]);
                assert_eq!(&made_by_types::<KG<Sum, Shake128Stream>>(), mixed);
            }

            #[cfg(feature = $feature)]
            #[test]
            fn over_shake_they_are_the_crate_itself() {
                use fips204::traits::{KeyGen, Signer};
                let (public, private) = fips204::$set::KG::keygen_from_seed(&[7; 32]);
                let signature = private.try_sign_with_seed(&[9; 32], b"a message", b"a context");
                let all = made::<Shake256Stream, Shake128Stream>(SetName::$name);
                assert_eq!(made_by_types::<KG<Shake256Stream, Shake128Stream>>(), all);
                assert_eq!(all[0], public.as_bytes());
                assert_eq!(all[1], private.as_bytes());
                assert_eq!(all[2], signature.unwrap());
            }
        }
    };
}

tests_of_a_set!(ml_dsa_44, MlDsa44, "ml-dsa-44-bare");
tests_of_a_set!(ml_dsa_65, MlDsa65, "ml-dsa-65-bare");
tests_of_a_set!(ml_dsa_87, MlDsa87, "ml-dsa-87-bare");

/// Prepared keys do what those do that they were made of.
#[test]
fn prepared() {
    for set in NAMES {
        let [public, private, signature] = made::<Sum, Sum>(set);
        let mut checks = vec![0; set.prepared_public_key_len()];
        let mut signs = vec![0; set.prepared_private_key_len()];
        let mut again = vec![0; signature.len()];
        AnySet::<Sum, Sum>::prepare_public_key(set, &public, &mut checks).unwrap();
        AnySet::<Sum, Sum>::prepare_private_key(set, &private, &mut signs).unwrap();
        let accepted = AnySet::<Sum, Sum>::verify_prepared(set, &checks, &INPUT, &signature);
        assert_eq!(accepted, Ok(true));
        AnySet::<Sum, Sum>::sign_prepared(set, &signs, &[9; 32], &INPUT, &mut again).unwrap();
        assert_eq!(again, signature);

        let end = signs.len() - 1;
        signs[end] = 0xFF;
        let refused = AnySet::<Sum, Sum>::sign_prepared(set, &signs, &[9; 32], &INPUT, &mut again);
        assert_eq!(refused, Err(Refusal::NotPrepared));
    }
}

/// Each refusal has the text that C has of it.
#[test]
fn refusals() {
    let [public, mut private, signature] = made::<Sum, Sum>(SetName::MlDsa44);
    let mut place = signature.clone();
    let mut text = |private: &[u8], input| {
        let done = MlDsa44::<Sum, Sum>::sign(private, &[0; 32], &input, &mut place);
        done.unwrap_err().to_string()
    };
    assert_eq!(text(&private[1..], INPUT), "an array has the wrong length");
    assert_eq!(
        text(&private, Input::Message(b"", &[0; 256])),
        "ML-DSA.Sign: ctx too long"
    );
    private[128] = 0xFF;
    assert_eq!(
        text(&private, INPUT),
        "the private key is damaged: s1 or s2 is out of range"
    );
    let short = MlDsa44::<Sum, Sum>::verify(&public, &INPUT, &signature[1..]);
    assert_eq!(short, Err(Refusal::Length(Buffer::Signature)));
    assert_eq!(
        Refusal::NotPrepared.to_string(),
        "no call has written this prepared key"
    );
    fn is_an_error(_: impl std::error::Error + Send + Sync + 'static) {}
    is_an_error(Refusal::from(Fault::KeyRange));
    is_an_error(Fault::KeyRange);
}

/// An XOF of one byte ends sampling at its limit, or not, and panics nowhere.
#[test]
fn constant_outputs() {
    let mut front = [0; 7];
    let mut reader = Fill::<0x55>::open(&[b"any"]);
    reader.read(&mut front);
    assert_eq!((front, reader.left()), ([0x55; 7], 4096 - 7));
    for set in NAMES {
        made::<Fill<0x55>, Fill<0x55>>(set);
        let (mut public, mut private) = (
            vec![0; set.public_key_len()],
            vec![0; set.private_key_len()],
        );
        let refused =
            AnySet::<Fill<0xFF>, Fill<0xFF>>::keygen(set, &[7; 32], &mut public, &mut private);
        assert_eq!(refused, Err(Refusal::Library(Fault::SamplingLimit)));
    }
}

/// A generator whose output no sampler takes anything of, and that never says that it is at its end.
struct Endless;

impl XofReader for Endless {
    fn left(&self) -> usize {
        usize::MAX
    }

    fn read(&mut self, out: &mut [u8]) {
        out.fill(0xFF);
    }
}

impl Xof for Endless {
    type Reader = Self;
    const FRONT: usize = 1_048_576;

    fn open(_: &[&[u8]]) -> Self {
        Endless
    }
}

/// However long an output is, sampling ends.
#[test]
fn sampling_ends() {
    use fips204::xofs::ml_dsa_44::KG;
    let of_the_matrix = KG::<Shake256Stream, Endless>::keygen_from_seed(&[7; 32]);
    let of_the_secrets = KG::<Endless, Shake128Stream>::keygen_from_seed(&[7; 32]);
    for fault in [of_the_matrix.err(), of_the_secrets.err()] {
        assert_eq!(fault, Some(Fault::SamplingLimit));
    }
}
