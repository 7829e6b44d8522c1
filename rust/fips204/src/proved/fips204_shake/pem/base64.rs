// Made by tools/erase of crates/fips204_shake/src/pem/base64.rt. Change that, not this.
//! Base64 (RFC 4648, section 4), with padding, and in its one spelling: the bits behind the last byte are zero. No branch and no
//! address depends on a symbol that is right, or on a byte.

use crate::proved::fips204_shake::pem::fault::PemFault;

/// 1 if the byte is at least so large, and else 0.
fn is_from(byte: u32, least: u32) -> u32 {
    (byte + 256 - least) / 256
}

/// The number of a symbol, or at least 256 for another byte.
fn value(byte: u8) -> u32 {
    let byte = byte as u32;
    let plus = is_from(byte, 43) - is_from(byte, 44);
    let slash = is_from(byte, 47) - is_from(byte, 48);
    let digit = is_from(byte, 48) - is_from(byte, 58);
    let upper = is_from(byte, 65) - is_from(byte, 91);
    let lower = is_from(byte, 97) - is_from(byte, 123);
    let other = 1 - (plus + slash + digit + upper + lower);
    byte + 19 * plus + 16 * slash + 4 * digit + 256 * other - 65 * upper - 71 * lower
}

/// The symbol of a number.
fn symbol(value: u8) -> u8 {
    let value = value as u32;
    let lower = is_from(value, 26);
    let digit = is_from(value, 52);
    let plus = is_from(value, 62);
    let slash = is_from(value, 63);
    (value + 65 + 6 * lower + 3 * slash - 75 * digit - 15 * plus) as u8
}

/// The bytes of four symbols, and how many they are.
fn group(a: u8, b: u8, c: u8, d: u8) -> Result<([u8; 3], usize), PemFault> {
    let p = value(a);
    let q = value(b);
    if d != b'=' {
        let r = value(c);
        let s = value(d);
        if p + q + r + s >= 256 {
            return Err(PemFault::Damaged);
        }
        let bytes = [
            (4 * p + q / 16) as u8,
            (16 * (q % 16) + r / 4) as u8,
            (64 * (r % 4) + s) as u8,
        ];
        return Ok((bytes, 3));
    }
    if c != b'=' {
        let r = value(c);
        if p + q + r >= 256 || r % 4 != 0 {
            return Err(PemFault::Damaged);
        }
        let bytes = [(4 * p + q / 16) as u8, (16 * (q % 16) + r / 4) as u8, 0];
        return Ok((bytes, 2));
    }
    if p + q >= 256 || q % 16 != 0 {
        return Err(PemFault::Damaged);
    }
    Ok(([(4 * p + q / 16) as u8, 0, 0], 1))
}

/// The first symbol of a text, and what stands behind it.
fn first_symbol(text: &[u8]) -> Option<(u8, &[u8])> {
    let mut rest = text;
    while let [byte, after @ ..] = rest {
        // A symbol is above all white space.
        if *byte > b' ' || !byte.is_ascii_whitespace() {
            return Some((*byte, after));
        }
        rest = after;
    }
    None
}

/// The first three symbols of a text, and what stands behind them.
fn three_symbols(text: &[u8]) -> Option<(u8, u8, u8, &[u8])> {
    let Some((first, rest)) = first_symbol(text) else {
        return None;
    };
    let Some((second, rest)) = first_symbol(rest) else {
        return None;
    };
    let Some((third, rest)) = first_symbol(rest) else {
        return None;
    };
    Some((first, second, third, rest))
}

/// Whether symbols follow a group that only the last one may be.
fn is_followed(size: usize, after: &[u8]) -> bool {
    size < 3 && first_symbol(after).is_some()
}

/// Writes a part at this place, and returns the place behind it.
pub(crate) fn put(out: &mut [u8], at: usize, part: &[u8]) -> usize {
    let end = at + part.len();
    out[at..end].copy_from_slice(part);
    end
}

/// Decodes what a text has beside white space, and returns how many bytes it wrote.
fn decoded(text: &[u8], out: &mut [u8]) -> Result<usize, PemFault> {
    let mut rest = text;
    let mut at = 0;
    while let Some((a, behind)) = first_symbol(rest) {
        let Some((b, c, d, after)) = three_symbols(behind) else {
            return Err(PemFault::Damaged);
        };
        let (bytes, size) = group(a, b, c, d)?;
        if is_followed(size, after) {
            return Err(PemFault::Damaged);
        }
        if out.len() - at < size {
            return Err(PemFault::TooLong);
        }
        at = put(out, at, &bytes[..size]);
        rest = after;
    }
    Ok(at)
}

/// Decodes base64 that may have white space anywhere, and returns how many bytes it wrote, at the front of `out`.
///
/// Errors: `Damaged` or `TooLong`, whichever is met first.
pub fn decode(text: &[u8], out: &mut [u8]) -> Result<usize, PemFault> {
    decoded(text, out)
}

/// Writes the symbols of bytes at this place, and returns the place behind them.
pub(crate) fn put_symbols(out: &mut [u8], at: usize, bytes: &[u8]) -> usize {
    let mut rest = bytes;
    let mut at = at;
    while let [a, b, c, after @ ..] = rest {
        at = put(out, at, &three(*a, *b, *c));
        rest = after;
    }
    match rest {
        [a, b, ..] => put(out, at, &two(*a, *b)),
        [a] => put(out, at, &one(*a)),
        [] => at,
    }
}

/// The symbols of three bytes.
fn three(a: u8, b: u8, c: u8) -> [u8; 4] {
    [
        symbol(a / 4),
        symbol(16 * (a % 4) + b / 16),
        symbol(4 * (b % 16) + c / 64),
        symbol(c % 64),
    ]
}

/// The symbols of two bytes at the end.
fn two(a: u8, b: u8) -> [u8; 4] {
    [
        symbol(a / 4),
        symbol(16 * (a % 4) + b / 16),
        symbol(4 * (b % 16)),
        b'=',
    ]
}

/// The symbols of one byte at the end.
fn one(a: u8) -> [u8; 4] {
    [symbol(a / 4), symbol(16 * (a % 4)), b'=', b'=']
}

/// Encodes bytes.
pub fn encode(bytes: &[u8], out: &mut [u8]) {
    put_symbols(out, 0, bytes);
}
