//! Nothing, so that cargo finds this crate where Debian lacks it and no feature that is on names it.
#![no_std]
