//! For `std::process`: an exit status that can be compared, and the right to end a process, which in Rust everything has.

#[derive(Clone, Copy, Debug, PartialEq, Eq)]
pub struct ExitCode(u8);

impl From<u8> for ExitCode {
    fn from(status: u8) -> ExitCode {
        ExitCode(status)
    }
}

impl std::process::Termination for ExitCode {
    fn report(self) -> std::process::ExitCode {
        self.0.into()
    }
}

pub trait Abort {}

impl Abort for crate::rt::HostRuntime {}
