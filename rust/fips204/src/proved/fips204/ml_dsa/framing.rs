// Made by tools/erase of crates/fips204/src/ml_dsa/framing.rt. Change that, not this.
//! The hash of what is signed (FIPS 204, Algorithms 2 to 5, 7 and 8).

use crate::proved::fips204::input::Input;
use crate::proved::fips204::types::pre_hash::check_pre_hash;
use crate::proved::fips204_base::Fault;
use crate::proved::fips204_base::xof::{Xof, hash};

/// The hash mu of a framed message: 64 bytes of `H`, read over the joined parts (line 6 of Algorithm 7, line 7
/// of Algorithm 8).
pub fn mu<H: Xof>(parts: &[&[u8]]) -> [u8; 64] {
    hash::<H, 64>(parts)
}

/// Checks the conditions on an input that is signed or verified.
///
/// Errors: for a message `Fault::SignCtx` if the context has more than 255 bytes. For a digest, in this order:
/// `Fault::HashCtx` if the context has more than 255 bytes; those of `check_pre_hash`.
pub(crate) fn check_input(input: &Input<'_>) -> Result<(), Fault> {
    match *input {
        Input::Message(_, context) if context.len() > 255 => Err(Fault::SignCtx),
        Input::Digest(_, context, _) if context.len() > 255 => Err(Fault::HashCtx),
        Input::Digest(digest, _, oid) => check_pre_hash(digest, oid),
        _ => Ok(()),
    }
}

/// The hash `mu` of an input, under the hash `tr` of the public key. Errors are those of `check_input`.
pub(crate) fn mu_of<'a, H: Xof>(tr: &'a [u8; 64], input: &Input<'a>) -> Result<[u8; 64], Fault> {
    check_input(input)?;
    Ok(match *input {
        Input::Message(message, context) => {
            mu::<H>(&[tr.as_slice(), &[0, context.len() as u8], context, message])
        }
        Input::Digest(digest, context, oid) => {
            mu::<H>(&[
                tr.as_slice(),
                &[1, context.len() as u8],
                context,
                oid,
                digest,
            ])
        }
        Input::Framed(m) => mu::<H>(&[tr.as_slice(), m]),
        Input::Mu(mu) => *mu,
    })
}
