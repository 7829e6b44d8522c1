//! Random bytes of the operating system, in a process that can open no file.
#![cfg(all(feature = "default-rng", target_os = "linux"))]

/// Of the C library, which is there with std.
#[repr(C)]
struct Limit {
    now: u64,
    most: u64,
}

unsafe extern "C" {
    fn getrlimit(what: i32, limit: *mut Limit) -> i32;
    fn setrlimit(what: i32, limit: *const Limit) -> i32;
}

/// RLIMIT_NOFILE on x86-64 and 64-bit ARM.
const FILES: i32 = 7;

/// What was mounted in the place of a device is not asked.
#[cfg(feature = "ml-dsa-44-bare")]
#[test]
fn without_a_file() {
    let mut limit = Limit { now: 0, most: 0 };
    // SAFETY: the pointers are to a limit as the C library declares it.
    unsafe {
        assert_eq!(getrlimit(FILES, &mut limit), 0);
        limit.now = 0;
        assert_eq!(setrlimit(FILES, &limit), 0);
    }
    assert!(std::fs::File::open("/dev/urandom").is_err());
    let (first, _) = fips204::ml_dsa_44::try_keygen().unwrap();
    let (second, private) = fips204::ml_dsa_44::try_keygen().unwrap();
    assert_ne!(first, second);
    assert_ne!(
        private.try_sign_mu(&[0; 64]).unwrap(),
        private.try_sign_mu(&[0; 64]).unwrap()
    );
    limit.now = limit.most;
    // SAFETY: as above.
    assert_eq!(unsafe { setrlimit(FILES, &limit) }, 0);
}
