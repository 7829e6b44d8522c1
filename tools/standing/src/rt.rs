//! For `std::rt`: the runtime that a program is given, with its words, input, output and standard error.

use crate::alloc::AllocGlobal;
use crate::env::FillError;
use std::ffi::OsString;
use std::fmt::{self, Display};
use std::fs::File;
use std::io::{self, BufReader, Read, Write};
use std::os::fd::{AsFd, AsRawFd};
use std::os::unix::ffi::OsStrExt;
use std::sync::OnceLock;
use std::sync::atomic::{AtomicBool, Ordering};

/// The process.
#[derive(Clone, Copy)]
pub struct HostRuntime;

impl AllocGlobal for HostRuntime {}

/// What has words and an environment: each of them is put into a place, and its length is returned.
pub trait Env {
    fn arg(&self, i: usize, buf: &mut [u8]) -> Result<usize, FillError>;

    fn var(&self, name: &str, buf: &mut [u8]) -> Result<usize, FillError>;

    fn var_at(&self, i: usize, buf: &mut [u8]) -> Result<usize, FillError>;
}

/// What has a standard error.
pub trait Eprint {
    fn eprint<D: Display>(&self, value: D) -> io::Result<()>;

    fn eprintln<D: Display>(&self, value: D) -> io::Result<()>;
}

fn put(bytes: &[u8], buf: &mut [u8]) -> Result<usize, FillError> {
    let room = buf.get_mut(..bytes.len()).ok_or(FillError::TooLong)?;
    room.copy_from_slice(bytes);
    Ok(bytes.len())
}

impl Env for HostRuntime {
    fn arg(&self, i: usize, buf: &mut [u8]) -> Result<usize, FillError> {
        static WORDS: OnceLock<Vec<OsString>> = OnceLock::new();
        let words = WORDS.get_or_init(|| std::env::args_os().collect());
        put(words.get(i).ok_or(FillError::NotPresent)?.as_bytes(), buf)
    }

    fn var(&self, name: &str, buf: &mut [u8]) -> Result<usize, FillError> {
        let value = std::env::var_os(name).ok_or(FillError::NotPresent)?;
        put(value.as_bytes(), buf)
    }

    fn var_at(&self, i: usize, buf: &mut [u8]) -> Result<usize, FillError> {
        let (name, value) = std::env::vars_os().nth(i).ok_or(FillError::NotPresent)?;
        put(&[name.as_bytes(), b"=", value.as_bytes()].concat(), buf)
    }
}

impl<E: Env> Env for (E, crate::alloc::Global) {
    fn arg(&self, i: usize, buf: &mut [u8]) -> Result<usize, FillError> {
        self.0.arg(i, buf)
    }

    fn var(&self, name: &str, buf: &mut [u8]) -> Result<usize, FillError> {
        self.0.var(name, buf)
    }

    fn var_at(&self, i: usize, buf: &mut [u8]) -> Result<usize, FillError> {
        self.0.var_at(i, buf)
    }
}

// (in one piece, so that lines of several processes do not mix)
impl Eprint for HostRuntime {
    fn eprint<D: Display>(&self, value: D) -> io::Result<()> {
        io::stderr().write_all(value.to_string().as_bytes())
    }

    fn eprintln<D: Display>(&self, value: D) -> io::Result<()> {
        self.eprint(format_args!("{value}\n"))
    }
}

/// For `println!(rt; ..)`: the line is written at once.
#[macro_export]
macro_rules! try_println {
    ($rt:expr; $($format:tt)*) => {
        $rt.print_line(::core::format_args!($($format)*))
    };
}

/// Whether each standard descriptor was closed when the process began.
static CLOSED: [AtomicBool; 3] = [const { AtomicBool::new(false) }; 3];

/// Rust's own start opens /dev/null in the place of a standard descriptor that is closed, and what is written there would be
/// lost with status 0: so it is looked before that. A file gets the lowest number that is free.
extern "C" fn look() {
    let Ok(file) = File::open("/dev/null") else {
        return;
    };
    if let Some(closed) = CLOSED.get(file.as_raw_fd() as usize) {
        closed.store(true, Ordering::Relaxed);
        look();
    }
}

// What the system calls before the start of Rust. It is unsafe to place something there that is no function of C.
#[cfg(target_os = "linux")]
#[allow(unsafe_code)]
#[used]
#[unsafe(link_section = ".init_array")]
static LOOK: extern "C" fn() = look;

/// The number of the error of a descriptor that is closed, `EBADF`.
const BAD_DESCRIPTOR: i32 = 9;

/// A descriptor of the process, of which nothing is kept back: what is read is what is asked for, and what is written is
/// written at once. Rust's own `stdin` reads ahead, and its `stdout` holds back.
pub struct Descriptor(io::Result<File>);

impl Descriptor {
    fn of<D: AsFd>(given: D) -> Descriptor {
        let fd = given.as_fd();
        let closed = CLOSED.get(fd.as_raw_fd() as usize);
        Descriptor(if closed.is_some_and(|it| it.load(Ordering::Relaxed)) {
            Err(io::Error::from_raw_os_error(BAD_DESCRIPTOR))
        } else {
            fd.try_clone_to_owned().map(File::from)
        })
    }

    fn file(&mut self) -> io::Result<&mut File> {
        self.0.as_mut().map_err(|error| match error.raw_os_error() {
            Some(number) => io::Error::from_raw_os_error(number),
            None => error.kind().into(),
        })
    }
}

impl Read for Descriptor {
    fn read(&mut self, buf: &mut [u8]) -> io::Result<usize> {
        self.file()?.read(buf)
    }
}

impl Write for Descriptor {
    fn write(&mut self, buf: &[u8]) -> io::Result<usize> {
        self.file()?.write(buf)
    }

    fn flush(&mut self) -> io::Result<()> {
        Ok(())
    }
}

/// A reader with room for the one byte that is looked at, so that what is not taken is left to others.
fn reader_of<D: AsFd>(given: D) -> BufReader<Descriptor> {
    BufReader::with_capacity(1, Descriptor::of(given))
}

impl HostRuntime {
    /// Standard input, a line after the other.
    pub fn reader(&self) -> BufReader<Descriptor> {
        reader_of(io::stdin())
    }

    pub fn stdin(&self) -> Descriptor {
        Descriptor::of(io::stdin())
    }

    /// Standard output.
    pub fn stdout(&self) -> Descriptor {
        Descriptor::of(io::stdout())
    }

    pub fn stderr(&self) -> io::Stderr {
        io::stderr()
    }

    /// What `println!(rt; ..)` calls.
    pub fn print_line(&self, line: fmt::Arguments<'_>) -> io::Result<()> {
        self.stdout().write_all(format!("{line}\n").as_bytes())
    }
}

#[cfg(test)]
mod tests {
    use super::*;
    use std::io::BufRead;

    #[test]
    fn words_and_variables_are_those_of_the_process() {
        let mut room = [0; 4096];
        let length = HostRuntime.arg(0, &mut room).unwrap();
        let name = std::env::args_os().next().unwrap();
        assert_eq!(room[..length], *name.as_bytes());
        assert_eq!(HostRuntime.arg(0, &mut []), Err(FillError::TooLong));
        assert_eq!(HostRuntime.arg(99, &mut room), Err(FillError::NotPresent));
        let length = HostRuntime.var("CARGO_PKG_NAME", &mut room).unwrap();
        assert_eq!(room[..length], *b"rattle_std");
        assert_eq!(
            HostRuntime.var("CARGO_PKG", &mut room),
            Err(FillError::NotPresent)
        );
        let length = HostRuntime.var_at(0, &mut room).unwrap();
        let (name, value) = std::env::vars_os().next().unwrap();
        assert_eq!(
            room[..length],
            *[name.as_bytes(), b"=", value.as_bytes()].concat()
        );
    }

    #[test]
    fn a_descriptor_that_was_refused_is_an_error() {
        let mut refused = Descriptor(Err(io::ErrorKind::PermissionDenied.into()));
        let errors = [refused.read(&mut [0]), refused.write(&[0])];
        assert!(errors.iter().all(|it| it.is_err()), "{errors:?}");
    }

    #[test]
    fn nothing_is_read_ahead() -> io::Result<()> {
        let (read, mut write) = io::pipe()?;
        write.write_all(b"first\nsecond")?;
        drop(write);
        let mut line = [0; 6];
        reader_of(&read).read_exact(&mut line)?;
        assert_eq!(line, *b"first\n");
        assert_eq!(reader_of(&read).fill_buf()?, b"s");
        assert_eq!(io::read_to_string(&read)?, "econd");
        Ok(())
    }
}
