// Made by tools/erase of crates/mldsa_c/src/texts.rt. Change that, not this.
//! The texts of the numbers that the exports return.

use crate::proved::mldsa_c::numbers::{DONE, NO_STATUS, TEXTS, WRONG_LENGTH};

/// The text that a table has of a number.
fn text_at(texts: &[&'static str], number: u32) -> &'static str {
    match texts.get(number as usize) {
        Some(text) => text,
        None => NO_STATUS,
    }
}

/// The text of a number.
pub(crate) fn text_of(number: u32) -> &'static str {
    text_at(&TEXTS, number)
}

/// Writes words, and zeros behind them.
pub(crate) fn write_padded(words: &[u8], text: &mut [u8]) {
    text.fill(0);
    text[..words.len()].copy_from_slice(words);
}

/// Writes the text of a status, and zeros behind it: 64 bytes.
pub fn mldsa_text_of(status: u32, text: &mut [u8]) -> u32 {
    if text.len() != 64 {
        return WRONG_LENGTH;
    }
    write_padded(text_of(status).as_bytes(), text);
    DONE
}
