//! The object identifiers, in DER, of the hash functions whose digests can be signed (FIPS 204, section 5.4).

/// The identifier 2.16.840.1.101.3.4.2.`last`.
const fn identifier(last: u8) -> [u8; 11] {
    [
        0x06, 0x09, 0x60, 0x86, 0x48, 0x01, 0x65, 0x03, 0x04, 0x02, last,
    ]
}

/// SHA-224, with a digest of 28 bytes.
pub const SHA2_224: [u8; 11] = identifier(4);
/// SHA-256, with a digest of 32 bytes.
pub const SHA2_256: [u8; 11] = identifier(1);
/// SHA-384, with a digest of 48 bytes.
pub const SHA2_384: [u8; 11] = identifier(2);
/// SHA-512, with a digest of 64 bytes.
pub const SHA2_512: [u8; 11] = identifier(3);
/// SHA-512/224, with a digest of 28 bytes.
pub const SHA2_512_224: [u8; 11] = identifier(5);
/// SHA-512/256, with a digest of 32 bytes.
pub const SHA2_512_256: [u8; 11] = identifier(6);
/// SHA3-224, with a digest of 28 bytes.
pub const SHA3_224: [u8; 11] = identifier(7);
/// SHA3-256, with a digest of 32 bytes.
pub const SHA3_256: [u8; 11] = identifier(8);
/// SHA3-384, with a digest of 48 bytes.
pub const SHA3_384: [u8; 11] = identifier(9);
/// SHA3-512, with a digest of 64 bytes.
pub const SHA3_512: [u8; 11] = identifier(10);
/// SHAKE128, with a digest of 32 bytes.
pub const SHAKE_128: [u8; 11] = identifier(11);
/// SHAKE256, with a digest of 64 bytes.
pub const SHAKE_256: [u8; 11] = identifier(12);
