//! For `std::env`: the words of a call.

use crate::alloc::{AllocError, AllocGlobal};
pub use crate::rt::Env;
use crate::string::String;
use crate::vec::Vec;
use std::{io, vec};

/// Why a word or a variable does not come.
#[derive(Clone, Copy, Debug, PartialEq, Eq)]
pub enum FillError {
    NotPresent,
    TooLong,
}

/// The words of the call, the program's name first, each of which has to be text.
pub fn args<R: Env + AllocGlobal>(rt: &R) -> io::Result<vec::IntoIter<String>> {
    let mut all = Vec::new(rt.alloc());
    let mut room = Vec::filled(rt.alloc(), 0, 256)?;
    loop {
        match rt.arg(all.len(), &mut room) {
            Ok(length) => {
                let text =
                    str::from_utf8(&room[..length]).map_err(|_| io::ErrorKind::InvalidData)?;
                all.push(String::from_str(rt.alloc(), text)?)?;
            }
            Err(FillError::TooLong) => {
                let size = room.len().checked_mul(2).ok_or(AllocError)?;
                room = Vec::filled(rt.alloc(), 0, size)?;
            }
            Err(FillError::NotPresent) => return Ok(all.into_iter()),
        }
    }
}

#[cfg(test)]
mod tests {
    use super::*;
    use crate::alloc::Global;

    struct Words(vec::Vec<vec::Vec<u8>>);

    impl Env for Words {
        fn arg(&self, i: usize, buf: &mut [u8]) -> Result<usize, FillError> {
            let word = self.0.get(i).ok_or(FillError::NotPresent)?;
            let room = buf.get_mut(..word.len()).ok_or(FillError::TooLong)?;
            room.copy_from_slice(word);
            Ok(word.len())
        }

        fn var(&self, _: &str, _: &mut [u8]) -> Result<usize, FillError> {
            Err(FillError::NotPresent)
        }

        fn var_at(&self, _: usize, _: &mut [u8]) -> Result<usize, FillError> {
            Err(FillError::NotPresent)
        }
    }

    #[test]
    fn words_of_every_length_come() {
        for length in [0, 255, 256, 257, 5000] {
            let word = "a".repeat(length);
            let rt = (Words(vec![b"name".to_vec(), word.clone().into()]), Global);
            let found: vec::Vec<_> = args(&rt).unwrap().map(|it| it.to_string()).collect();
            assert_eq!(found, ["name".to_string(), word]);
        }
    }

    #[test]
    fn a_word_that_is_no_text_is_an_error() {
        let rt = (Words(vec![b"name".to_vec(), b"\xff".to_vec()]), Global);
        assert_eq!(args(&rt).unwrap_err().kind(), io::ErrorKind::InvalidData);
    }
}
