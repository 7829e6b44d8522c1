//! For `std::thread`: a sleep that is given the clock.

use crate::rt::HostRuntime;
use std::time::Duration;

pub fn sleep(_: &HostRuntime, duration: Duration) {
    std::thread::sleep(duration);
}

#[cfg(test)]
mod tests {
    use super::*;
    use std::time::Instant;

    #[test]
    fn it_sleeps_as_long_as_it_is_told() {
        let (start, asked) = (Instant::now(), Duration::from_millis(20));
        sleep(&HostRuntime, asked);
        assert!(start.elapsed() >= asked);
    }
}
