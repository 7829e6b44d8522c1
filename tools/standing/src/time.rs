//! For `std::time`: a clock that may be missing, which in Rust it never is.

use crate::rt::HostRuntime;
use std::io::Result;
pub use std::time::Duration;

#[derive(Clone, Copy)]
pub struct Instant(std::time::Instant);

impl Instant {
    pub fn now(_: &HostRuntime) -> Result<Instant> {
        Ok(Instant(std::time::Instant::now()))
    }

    pub fn elapsed(&self, _: &HostRuntime) -> Result<Duration> {
        Ok(self.0.elapsed())
    }
}
