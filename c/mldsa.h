/* mldsa.h - ML-DSA (FIPS 204) at the parameter sets 44, 65 and 87, over SHAKE
 *
 * Test a result for 0. verify returns 0 (MLDSA_YES) if the signature is accepted, and every other result is a rejection, also the
 * one for a wrong length. The one right test is
 *
 *     if (mldsa65_verify(..) == MLDSA_YES)
 *         .. accepted ..
 *
 * and likewise for is_whole and is_pair. No call but accepts returns 1, which is success in other libraries: the test `== 1` accepts
 * nothing. But `if (mldsa65_verify(..))` accepts every forgery, and no compiler warns.
 *
 * An array is a pointer and, right after it, its length in bytes. A wrong length is safe: the call returns MLDSA_WRONG_LENGTH and
 * writes nothing. The arrays that a call writes are those without const; they come last. The call writes them only if the result is
 * MLDSA_DONE, and leaves them as they were after every other result.
 *
 * You owe the following, and nothing checks it:
 *  - no pointer is null, also if its length is 0 (for an empty array pass MLDSA_NOTHING, 0), and it points to as many bytes as its
 *    length says. An array may begin at any address;
 *  - an array that is written overlaps no other array of the call, and nobody else touches it meanwhile. Arrays that are read may
 *    overlap, and others may read them at the same time;
 *  - the thread has as many bytes of stack left as MLDSA*_STACK_* says (ask for them where you start a thread);
 *  - seed and random are secret, drawn from a good generator, and used once.
 *
 * gcc and clang warn about a result that you don't use, and, if they don't optimize, about a NULL that they see. gcc 10 and later
 * also warns about an array that is shorter than its length says, as one of another set is. If your program tests a pointer for
 * null, the test stays, wherever it stands.
 *
 * The library's code in Rattle is proved: each call returns what FIPS 204 says or an error, reads and writes nothing but the
 * arrays that you give, and ends. docs/SPEC.md of its repository says this exactly, and what it rests on. On x86-64 some lines
 * of C, which are tested, choose between two compilations of that code. If cargo builds the library, the same code is plain Rust,
 * which a script makes of it.
 *
 * The calls keep no state but, on x86-64, the processor's level. They allocate nothing, call nothing but memcpy, memmove and
 * memset, and may run in any number of threads. As cargo builds the library, it also calls memcmp or bcmp, and abort at places that
 * the proofs show to be out of reach. The calls leave secrets on the stack below your frame, and are not claimed to run in constant
 * time.
 *
 * A set's number is part of each name: mldsa44_keygen, mldsa65_keygen, mldsa87_keygen. A comment at each call says what it does,
 * how much stack it needs and which results it has. The declarations of 65 and 87 are made from those of 44 by tools/sets. A
 * program for each group of calls is among the examples: message.c, digest.c, pieces.c, keys.c, prepared.c and der.c. Nobody knows
 * an input for which a call returns MLDSA_SAMPLING_LIMIT.
 */
#ifndef MLDSA_H
#define MLDSA_H

#include <stddef.h>
#include <stdint.h>

#ifdef __cplusplus
extern "C" {
#endif

/* The version of this header; mldsa_version returns that of the library, as 65536 * major + 256 * minor + patch.
 *
 * A program that was compiled with this header runs with every library of the same major and minor number whose patch is as high
 * or higher. In all of them the calls that this header declares have the same names, parameters and lengths (_LEN), take and write
 * the same keys and signatures, and return the same numbers. What a higher one may add are calls, and results for what only these
 * take. Another minor number may change any of that; keys and signatures are those of FIPS 204 in every version.
 *
 * In every version may change: the stack that a call needs (_STACK_), so take the header that came with the library; the texts of
 * mldsa_text; and the bytes inside a state and behind the key in a prepared key, which are for the library that wrote them. */
#define MLDSA_VERSION 0x000200
#define MLDSA_VERSION_TEXT "0.2.0"

/* No pointer is null, and the result of a call is to be looked at. A compiler that optimizes is not told the first, since it would
 * leave out a program's own test for null behind a call. */
#if defined(__GNUC__) && !defined(__OPTIMIZE__)
#define MLDSA_POINTERS __attribute__((nonnull))
#else
#define MLDSA_POINTERS
#endif
#if (defined(__cplusplus) && __cplusplus >= 201703L) || (defined(__STDC_VERSION__) && __STDC_VERSION__ >= 202311L)
#define MLDSA_ANSWERS [[nodiscard]] MLDSA_POINTERS
#elif defined(__GNUC__)
#define MLDSA_ANSWERS __attribute__((warn_unused_result)) MLDSA_POINTERS
#else
#define MLDSA_ANSWERS
#endif

/* For a function of this header. C89 has no inline, but gcc and clang have a word for it there too. */
#if defined(__cplusplus) || (defined(__STDC_VERSION__) && __STDC_VERSION__ >= 199901L)
#define MLDSA_INLINE static inline
#elif defined(__GNUC__)
#define MLDSA_INLINE static __inline__
#else
#define MLDSA_INLINE static
#endif

/* How many arrays a call reads and how many it then writes, each with its length behind it. */
#define MLDSA_ARRAYS(read, written) MLDSA_READS_##read MLDSA_WRITES_##written##_BEHIND_##read
#if defined(__GNUC__) && !defined(__clang__) && __GNUC__ >= 10
#define MLDSA_ARRAY(how, pointer, length) __attribute__((access(how, pointer, length)))
#else
#define MLDSA_ARRAY(how, pointer, length)
#endif
#define MLDSA_READS_1 MLDSA_ARRAY(read_only, 1, 2)
#define MLDSA_READS_2 MLDSA_READS_1 MLDSA_ARRAY(read_only, 3, 4)
#define MLDSA_READS_3 MLDSA_READS_2 MLDSA_ARRAY(read_only, 5, 6)
#define MLDSA_READS_4 MLDSA_READS_3 MLDSA_ARRAY(read_only, 7, 8)
#define MLDSA_READS_5 MLDSA_READS_4 MLDSA_ARRAY(read_only, 9, 10)
#define MLDSA_WRITES_0_BEHIND_1
#define MLDSA_WRITES_0_BEHIND_2
#define MLDSA_WRITES_0_BEHIND_3
#define MLDSA_WRITES_0_BEHIND_4
#define MLDSA_WRITES_0_BEHIND_5
#define MLDSA_WRITES_1_BEHIND_1 MLDSA_ARRAY(write_only, 3, 4)
#define MLDSA_WRITES_1_BEHIND_2 MLDSA_ARRAY(write_only, 5, 6)
#define MLDSA_WRITES_1_BEHIND_3 MLDSA_ARRAY(write_only, 7, 8)
#define MLDSA_WRITES_1_BEHIND_4 MLDSA_ARRAY(write_only, 9, 10)
#define MLDSA_WRITES_1_BEHIND_5 MLDSA_ARRAY(write_only, 11, 12)
#define MLDSA_WRITES_2_BEHIND_1 MLDSA_WRITES_1_BEHIND_1 MLDSA_ARRAY(write_only, 5, 6)

/** What a call returns. mldsa_text has a text for each. c/exports.py makes of both what other languages have. */
enum mldsa_status {
    MLDSA_DONE = 0,                   /**< done, and the arrays are written */
    MLDSA_YES = 0,                    /**< the result of a question is yes */
    MLDSA_NO = 2,                     /**< the result of a question is no */
    MLDSA_WRONG_LENGTH = 3,           /**< an array has the wrong length */
    MLDSA_CONTEXT_TOO_LONG = 4,       /**< sign: the context has more than 255 bytes */
    MLDSA_HASH_CONTEXT_TOO_LONG = 5,  /**< hash_sign: the context has more than 255 bytes */
    MLDSA_OID_EMPTY = 6,              /**< hash_sign: the object identifier is empty */
    MLDSA_OID_NOT_DER = 7,            /**< hash_sign: the object identifier is not in DER */
    MLDSA_DIGEST_TOO_LONG = 8,        /**< hash_sign: the digest has more than 1024 bytes */
    MLDSA_DIGEST_LENGTH = 9,          /**< hash_sign: the digest has not the length of the function's digests */
    MLDSA_TOO_MANY_ATTEMPTS = 10,     /**< signing: all 814 attempts were rejected, as with an inconsistent key */
    MLDSA_KEY_RANGE = 11,             /**< the bytes are no private key */
    MLDSA_SAMPLING_LIMIT = 12,        /**< rejection sampling reached its limit; no such input is known */
    MLDSA_BROKEN_STATE = 13,          /**< mldsa_mu_update, mldsa_mu_finish: the last byte of the state is 0 or above 136 */
    MLDSA_NOT_PREPARED = 14,          /**< a value of this prepared key is out of range, so no call has written it */
    MLDSA_DER_CUT_SHORT = 15,         /**< an element of the DER is longer than what holds it */
    MLDSA_DER_TRAILING = 16,          /**< something follows an element of the DER where nothing may */
    MLDSA_DER_DAMAGED = 17,           /**< the DER has another element than is expected, or a length in another form */
    MLDSA_DER_VERSION = 18,           /**< the version of the private key is not 0 */
    MLDSA_DER_ALGORITHM = 19,         /**< the algorithm is none of the three, or has parameters */
    MLDSA_DER_KEY_LENGTH = 20,        /**< the seed or key has another length than its algorithm's */
    MLDSA_OTHER_SET = 21,             /**< the key is one of another parameter set */
    MLDSA_INCONSISTENT = 22,          /**< the parts of the private key do not belong together */
    MLDSA_NO_SEED = 23,               /**< seed_from_der, seed_from_pem: the private key has no seed */
    MLDSA_PEM_MISSING = 24,           /**< the text has no first line */
    MLDSA_PEM_ENCRYPTED = 25,         /**< the text has a private key that is encrypted */
    MLDSA_PEM_CERTIFICATE = 26,       /**< the text has a certificate */
    MLDSA_PEM_OTHER_KIND = 27,        /**< the text has a public key in place of a private one, or the other way round */
    MLDSA_PEM_OTHER_LABEL = 28,       /**< the first line of the text has another label */
    MLDSA_PEM_CUT_SHORT = 29,         /**< the text ends before its last line does */
    MLDSA_PEM_TRAILING = 30,          /**< another text follows */
    MLDSA_PEM_DAMAGED = 31            /**< what stands between the first and the last line is not base64 */
};

#define MLDSA_SEED_LEN 32
#define MLDSA_RANDOM_LEN 32
#define MLDSA_MU_LEN 64
#define MLDSA_STATE_LEN 337
#define MLDSA_SEED_DER_LEN 54

/* The stack that each call of a set needs, in bytes:
 *
 *  MLDSA*_STACK_KEYGEN               keygen
 *  MLDSA*_STACK_SIGN                 sign, hash_sign, sign_mu
 *  MLDSA*_STACK_VERIFY               verify, accepts, hash_verify, verify_mu
 *  MLDSA*_STACK_PUBLIC_KEY           public_key
 *  MLDSA*_STACK_CHECK                check_private_key
 *  MLDSA*_STACK_WHOLE, _PAIR         is_whole, is_pair
 *  MLDSA*_STACK_PREPARE_PUBLIC_KEY   prepare_public_key, and _PREPARE_PRIVATE_KEY prepare_private_key
 *  MLDSA*_STACK_SIGN_PREPARED        sign_prepared, hash_sign_prepared, sign_mu_prepared
 *  MLDSA*_STACK_VERIFY_PREPARED      verify_prepared, hash_verify_prepared, verify_mu_prepared
 *  MLDSA*_STACK_DER, _PEM            the calls on keys in DER and in PEM, whose names end so
 *  MLDSA_STACK_MU                    mu_begin, mu_begin_private, mldsa_mu_update, mldsa_mu_finish; it is enough for mldsa_version,
 *                                    mldsa_check_pre_hash, mldsa_text_of, mldsa_lengths and mldsa_name too
 *
 * glibc gives a thread what `ulimit -s` says, mostly 8 MiB. musl gives it 128 KiB, on which a call that needs more ends the program
 * by SIGSEGV: there give a thread more when it is made, with these attributes; 16384 is for the rest of the thread.
 *
 *     pthread_attr_t attributes;
 *     pthread_attr_init(&attributes);
 *     pthread_attr_setstacksize(&attributes, MLDSA65_STACK_SIGN + 16384);
 */

/* A pointer for an array of length 0. */
#define MLDSA_NOTHING ((const uint8_t *)"")

/* The object identifiers of the twelve hash functions that FIPS 204 names, each an argument oid: MLDSA_OID_SHA2_512, MLDSA_OID_LEN. */
#define MLDSA_OID_LEN 11
#define MLDSA_OID(n) ((const uint8_t *)"\x06\x09\x60\x86\x48\x01\x65\x03\x04\x02" n)
#define MLDSA_OID_SHA2_256 MLDSA_OID("\x01")
#define MLDSA_OID_SHA2_384 MLDSA_OID("\x02")
#define MLDSA_OID_SHA2_512 MLDSA_OID("\x03")
#define MLDSA_OID_SHA2_224 MLDSA_OID("\x04")
#define MLDSA_OID_SHA2_512_224 MLDSA_OID("\x05")
#define MLDSA_OID_SHA2_512_256 MLDSA_OID("\x06")
#define MLDSA_OID_SHA3_224 MLDSA_OID("\x07")
#define MLDSA_OID_SHA3_256 MLDSA_OID("\x08")
#define MLDSA_OID_SHA3_384 MLDSA_OID("\x09")
#define MLDSA_OID_SHA3_512 MLDSA_OID("\x0a")
#define MLDSA_OID_SHAKE128 MLDSA_OID("\x0b")
#define MLDSA_OID_SHAKE256 MLDSA_OID("\x0c")

/* ML-DSA-44. */

#define MLDSA44_PUBLIC_KEY_LEN 1312
#define MLDSA44_PRIVATE_KEY_LEN 2560
#define MLDSA44_SIGNATURE_LEN 2420
#define MLDSA44_PREPARED_PUBLIC_KEY_LEN 17760
#define MLDSA44_PREPARED_PRIVATE_KEY_LEN 18944

#define MLDSA44_STACK_KEYGEN 55296
#define MLDSA44_STACK_SIGN 115712
#define MLDSA44_STACK_VERIFY 52224
#define MLDSA44_STACK_PUBLIC_KEY 88064
#define MLDSA44_STACK_CHECK 49152
#define MLDSA44_STACK_WHOLE 72704
#define MLDSA44_STACK_PAIR 75776
#define MLDSA44_STACK_PREPARE_PUBLIC_KEY 40960
#define MLDSA44_STACK_VERIFY_PREPARED 43008
#define MLDSA44_STACK_PREPARE_PRIVATE_KEY 63488
#define MLDSA44_STACK_SIGN_PREPARED 115712

/** Makes the key pair of a seed of MLDSA_SEED_LEN bytes. Whoever has the seed has the key.
 * Needs MLDSA44_STACK_KEYGEN bytes of stack.
 * @return MLDSA_DONE, MLDSA_WRONG_LENGTH, MLDSA_SAMPLING_LIMIT */
MLDSA_ANSWERS MLDSA_ARRAYS(1, 2)
uint32_t mldsa44_keygen(const uint8_t *seed, size_t seed_len, uint8_t *public_key, size_t public_key_len,
                        uint8_t *private_key, size_t private_key_len);

/** Signs a message under a context of at most 255 bytes. random has MLDSA_RANDOM_LEN bytes; with zeros the signature is the
 * deterministic one of the standard, the same each time. The hash tr that is signed with the message is the one in the private
 * key.
 * Needs MLDSA44_STACK_SIGN bytes of stack.
 * @return MLDSA_DONE, MLDSA_WRONG_LENGTH, MLDSA_KEY_RANGE, MLDSA_CONTEXT_TOO_LONG, MLDSA_SAMPLING_LIMIT,
 * MLDSA_TOO_MANY_ATTEMPTS */
MLDSA_ANSWERS MLDSA_ARRAYS(4, 1)
uint32_t mldsa44_sign(const uint8_t *private_key, size_t private_key_len, const uint8_t *message, size_t message_len,
                      const uint8_t *context, size_t context_len, const uint8_t *random, size_t random_len,
                      uint8_t *signature, size_t signature_len);

/** Tells whether the public key accepts the signature of the message under the context. Test for == MLDSA_YES and nothing else.
 * If the context has more than 255 bytes, the result is MLDSA_NO.
 * Needs MLDSA44_STACK_VERIFY bytes of stack.
 * @return MLDSA_YES, MLDSA_WRONG_LENGTH, MLDSA_NO */
MLDSA_ANSWERS MLDSA_ARRAYS(4, 0)
uint32_t mldsa44_verify(const uint8_t *public_key, size_t public_key_len, const uint8_t *message, size_t message_len,
                        const uint8_t *context, size_t context_len, const uint8_t *signature, size_t signature_len);

/** Tells the same as verify by 1 for yes and 0 for everything else, for languages in which 0 is false. Never compare the result
 * with MLDSA_YES.
 * Needs MLDSA44_STACK_VERIFY bytes of stack.
 * @return 1 or 0 */
MLDSA_ANSWERS MLDSA_ARRAYS(4, 0)
uint32_t mldsa44_accepts(const uint8_t *public_key, size_t public_key_len, const uint8_t *message, size_t message_len,
                         const uint8_t *context, size_t context_len, const uint8_t *signature, size_t signature_len);

/** Signs the digest of a message that you hashed, under a context of at most 255 bytes (HashML-DSA). oid names the hash
 * function, as MLDSA_OID_SHA2_512 with MLDSA_OID_LEN. If it is one of the twelve that FIPS 204 names, the digest must have its
 * length; with another, at most 1024 bytes. Whether the function is strong enough for the set (FIPS 204, 5.4) is not checked.
 * random is that of sign.
 * Needs MLDSA44_STACK_SIGN bytes of stack.
 * @return MLDSA_DONE, MLDSA_WRONG_LENGTH, MLDSA_KEY_RANGE, MLDSA_HASH_CONTEXT_TOO_LONG, MLDSA_OID_EMPTY, MLDSA_OID_NOT_DER,
 * MLDSA_DIGEST_TOO_LONG, MLDSA_DIGEST_LENGTH, MLDSA_SAMPLING_LIMIT, MLDSA_TOO_MANY_ATTEMPTS */
MLDSA_ANSWERS MLDSA_ARRAYS(5, 1)
uint32_t mldsa44_hash_sign(const uint8_t *private_key, size_t private_key_len,
                           const uint8_t *digest, size_t digest_len, const uint8_t *context, size_t context_len,
                           const uint8_t *oid, size_t oid_len, const uint8_t *random, size_t random_len,
                           uint8_t *signature, size_t signature_len);

/** Tells whether the public key accepts the signature that hash_sign made of the digest. If hash_sign would not sign this
 * digest with this oid, the result is MLDSA_NO.
 * Needs MLDSA44_STACK_VERIFY bytes of stack.
 * @return MLDSA_YES, MLDSA_WRONG_LENGTH, MLDSA_NO */
MLDSA_ANSWERS MLDSA_ARRAYS(5, 0)
uint32_t mldsa44_hash_verify(const uint8_t *public_key, size_t public_key_len,
                             const uint8_t *digest, size_t digest_len, const uint8_t *context, size_t context_len,
                             const uint8_t *oid, size_t oid_len, const uint8_t *signature, size_t signature_len);

/** Signs the message of which this is mu. mu has MLDSA_MU_LEN bytes: the first 64 bytes of SHAKE256 over tr, 00, the context's
 * length as a byte, the context and the message, where tr are the first 64 bytes of SHAKE256 over the public key. The
 * signature is the one that sign makes, if the private key keeps this tr. mldsa_mu_finish writes such a mu.
 * Needs MLDSA44_STACK_SIGN bytes of stack.
 * @return MLDSA_DONE, MLDSA_WRONG_LENGTH, MLDSA_KEY_RANGE, MLDSA_SAMPLING_LIMIT, MLDSA_TOO_MANY_ATTEMPTS */
MLDSA_ANSWERS MLDSA_ARRAYS(3, 1)
uint32_t mldsa44_sign_mu(const uint8_t *private_key, size_t private_key_len, const uint8_t *mu, size_t mu_len,
                         const uint8_t *random, size_t random_len, uint8_t *signature, size_t signature_len);

/** Tells whether the public key accepts the signature of the message of which this is mu, as sign_mu has it.
 * Needs MLDSA44_STACK_VERIFY bytes of stack.
 * @return MLDSA_YES, MLDSA_WRONG_LENGTH, MLDSA_NO */
MLDSA_ANSWERS MLDSA_ARRAYS(3, 0)
uint32_t mldsa44_verify_mu(const uint8_t *public_key, size_t public_key_len, const uint8_t *mu, size_t mu_len,
                           const uint8_t *signature, size_t signature_len);

/** Writes the public key that belongs to a private key.
 * Needs MLDSA44_STACK_PUBLIC_KEY bytes of stack.
 * @return MLDSA_DONE, MLDSA_WRONG_LENGTH, MLDSA_KEY_RANGE, MLDSA_SAMPLING_LIMIT */
MLDSA_ANSWERS MLDSA_ARRAYS(1, 1)
uint32_t mldsa44_public_key(const uint8_t *private_key, size_t private_key_len,
                            uint8_t *public_key, size_t public_key_len);

/** Tells whether the bytes are a private key at all, which each call with a private key checks too. Ask is_pair whether its
 * parts belong together.
 * Needs MLDSA44_STACK_CHECK bytes of stack.
 * @return MLDSA_DONE, MLDSA_WRONG_LENGTH, MLDSA_KEY_RANGE */
MLDSA_ANSWERS MLDSA_ARRAYS(1, 0)
uint32_t mldsa44_check_private_key(const uint8_t *private_key, size_t private_key_len);

/** Tells whether the part t0 of a private key belongs to its parts s1 and s2, and ignores its hash tr. You want is_pair, unless
 * you know why not.
 * Needs MLDSA44_STACK_WHOLE bytes of stack.
 * @return MLDSA_YES, MLDSA_WRONG_LENGTH, MLDSA_NO, MLDSA_KEY_RANGE, MLDSA_SAMPLING_LIMIT */
MLDSA_ANSWERS MLDSA_ARRAYS(1, 0)
uint32_t mldsa44_is_whole(const uint8_t *private_key, size_t private_key_len);

/** Tells whether the parts of a private key from elsewhere belong together. If so, whatever it signs is accepted under the
 * public key that public_key writes; keygen makes no other keys. If not, its t0 or tr is not its own, and what it signs may be
 * accepted or not.
 * Needs MLDSA44_STACK_PAIR bytes of stack.
 * @return MLDSA_YES, MLDSA_WRONG_LENGTH, MLDSA_NO, MLDSA_KEY_RANGE, MLDSA_SAMPLING_LIMIT */
MLDSA_ANSWERS MLDSA_ARRAYS(1, 0)
uint32_t mldsa44_is_pair(const uint8_t *private_key, size_t private_key_len);

/** Begins a message in pieces, under a context of at most 255 bytes, for the public key that verifies it: writes a state of
 * MLDSA_STATE_LEN bytes. Then mldsa_mu_update adds pieces, and mldsa_mu_finish writes mu.
 * Needs MLDSA_STACK_MU bytes of stack.
 * @return MLDSA_DONE, MLDSA_WRONG_LENGTH, MLDSA_CONTEXT_TOO_LONG */
MLDSA_ANSWERS MLDSA_ARRAYS(2, 1)
uint32_t mldsa44_mu_begin(const uint8_t *public_key, size_t public_key_len, const uint8_t *context, size_t context_len,
                          uint8_t *state, size_t state_len);

/** Begins a message in pieces as mu_begin does, for the private key that signs it, with the hash tr that this keeps.
 * Needs MLDSA_STACK_MU bytes of stack.
 * @return MLDSA_DONE, MLDSA_WRONG_LENGTH, MLDSA_CONTEXT_TOO_LONG */
MLDSA_ANSWERS MLDSA_ARRAYS(2, 1)
uint32_t mldsa44_mu_begin_private(const uint8_t *private_key, size_t private_key_len,
                                  const uint8_t *context, size_t context_len, uint8_t *state, size_t state_len);

/** Writes a prepared public key: the bytes of the key, and behind them what each call would compute from them anew. Keep it
 * where nobody can change it: a changed one may accept what nobody signed.
 * Needs MLDSA44_STACK_PREPARE_PUBLIC_KEY bytes of stack.
 * @return MLDSA_DONE, MLDSA_WRONG_LENGTH, MLDSA_SAMPLING_LIMIT */
MLDSA_ANSWERS MLDSA_ARRAYS(1, 1)
uint32_t mldsa44_prepare_public_key(const uint8_t *public_key, size_t public_key_len,
                                    uint8_t *prepared_public_key, size_t prepared_public_key_len);

/** Writes a prepared private key: the bytes of the key, and behind them what each call would compute from them anew. Keep it as
 * secret as the private key, and where nobody can change it: what a changed one signs may tell the key.
 * Needs MLDSA44_STACK_PREPARE_PRIVATE_KEY bytes of stack.
 * @return MLDSA_DONE, MLDSA_WRONG_LENGTH, MLDSA_KEY_RANGE, MLDSA_SAMPLING_LIMIT */
MLDSA_ANSWERS MLDSA_ARRAYS(1, 1)
uint32_t mldsa44_prepare_private_key(const uint8_t *private_key, size_t private_key_len,
                                     uint8_t *prepared_private_key, size_t prepared_private_key_len);

/** Does what sign does with the key that was prepared, in less time. Any bytes are safe in a prepared key, but nothing
 * checks that its parts belong together: MLDSA_NOT_PREPARED says that a value of its matrix is 8380417 or more, or that a
 * coefficient of s1 or s2 is out of range. With the matrix or tr of another key, which no call writes, the signature means nothing.
 * Needs MLDSA44_STACK_SIGN_PREPARED bytes of stack.
 * @return MLDSA_DONE, MLDSA_WRONG_LENGTH, MLDSA_NOT_PREPARED, MLDSA_CONTEXT_TOO_LONG, MLDSA_SAMPLING_LIMIT,
 * MLDSA_TOO_MANY_ATTEMPTS */
MLDSA_ANSWERS MLDSA_ARRAYS(4, 1)
uint32_t mldsa44_sign_prepared(const uint8_t *prepared_private_key, size_t prepared_private_key_len,
                               const uint8_t *message, size_t message_len, const uint8_t *context, size_t context_len,
                               const uint8_t *random, size_t random_len, uint8_t *signature, size_t signature_len);

/** Does what verify does with the key that was prepared, in less time. Any bytes are safe in a prepared key, but nothing
 * checks that its parts belong together: MLDSA_NOT_PREPARED says that a value of its matrix is 8380417 or more. With the
 * matrix or tr of another key, which no call writes, the verdict means nothing.
 * Needs MLDSA44_STACK_VERIFY_PREPARED bytes of stack.
 * @return MLDSA_YES, MLDSA_WRONG_LENGTH, MLDSA_NO, MLDSA_NOT_PREPARED */
MLDSA_ANSWERS MLDSA_ARRAYS(4, 0)
uint32_t mldsa44_verify_prepared(const uint8_t *prepared_public_key, size_t prepared_public_key_len,
                                 const uint8_t *message, size_t message_len, const uint8_t *context, size_t context_len,
                                 const uint8_t *signature, size_t signature_len);

/** Does what hash_sign does with the key that was prepared.
 * Needs MLDSA44_STACK_SIGN_PREPARED bytes of stack.
 * @return MLDSA_DONE, MLDSA_WRONG_LENGTH, MLDSA_NOT_PREPARED, MLDSA_HASH_CONTEXT_TOO_LONG, MLDSA_OID_EMPTY, MLDSA_OID_NOT_DER,
 * MLDSA_DIGEST_TOO_LONG, MLDSA_DIGEST_LENGTH, MLDSA_SAMPLING_LIMIT, MLDSA_TOO_MANY_ATTEMPTS */
MLDSA_ANSWERS MLDSA_ARRAYS(5, 1)
uint32_t mldsa44_hash_sign_prepared(const uint8_t *prepared_private_key, size_t prepared_private_key_len,
                                    const uint8_t *digest, size_t digest_len, const uint8_t *context, size_t context_len,
                                    const uint8_t *oid, size_t oid_len, const uint8_t *random, size_t random_len,
                                    uint8_t *signature, size_t signature_len);

/** Does what hash_verify does with the key that was prepared.
 * Needs MLDSA44_STACK_VERIFY_PREPARED bytes of stack.
 * @return MLDSA_YES, MLDSA_WRONG_LENGTH, MLDSA_NO, MLDSA_NOT_PREPARED */
MLDSA_ANSWERS MLDSA_ARRAYS(5, 0)
uint32_t mldsa44_hash_verify_prepared(const uint8_t *prepared_public_key, size_t prepared_public_key_len,
                                      const uint8_t *digest, size_t digest_len, const uint8_t *context, size_t context_len,
                                      const uint8_t *oid, size_t oid_len, const uint8_t *signature, size_t signature_len);

/** Does what sign_mu does with the key that was prepared.
 * Needs MLDSA44_STACK_SIGN_PREPARED bytes of stack.
 * @return MLDSA_DONE, MLDSA_WRONG_LENGTH, MLDSA_NOT_PREPARED, MLDSA_SAMPLING_LIMIT, MLDSA_TOO_MANY_ATTEMPTS */
MLDSA_ANSWERS MLDSA_ARRAYS(3, 1)
uint32_t mldsa44_sign_mu_prepared(const uint8_t *prepared_private_key, size_t prepared_private_key_len,
                                  const uint8_t *mu, size_t mu_len, const uint8_t *random, size_t random_len,
                                  uint8_t *signature, size_t signature_len);

/** Does what verify_mu does with the key that was prepared.
 * Needs MLDSA44_STACK_VERIFY_PREPARED bytes of stack.
 * @return MLDSA_YES, MLDSA_WRONG_LENGTH, MLDSA_NO, MLDSA_NOT_PREPARED */
MLDSA_ANSWERS MLDSA_ARRAYS(3, 0)
uint32_t mldsa44_verify_mu_prepared(const uint8_t *prepared_public_key, size_t prepared_public_key_len,
                                    const uint8_t *mu, size_t mu_len, const uint8_t *signature, size_t signature_len);

/* ML-DSA-65. */

#define MLDSA65_PUBLIC_KEY_LEN 1952
#define MLDSA65_PRIVATE_KEY_LEN 4032
#define MLDSA65_SIGNATURE_LEN 3309
#define MLDSA65_PREPARED_PUBLIC_KEY_LEN 32736
#define MLDSA65_PREPARED_PRIVATE_KEY_LEN 34752

#define MLDSA65_STACK_KEYGEN 72704
#define MLDSA65_STACK_SIGN 152576
#define MLDSA65_STACK_VERIFY 65536
#define MLDSA65_STACK_PUBLIC_KEY 126976
#define MLDSA65_STACK_CHECK 69632
#define MLDSA65_STACK_WHOLE 103424
#define MLDSA65_STACK_PAIR 108544
#define MLDSA65_STACK_PREPARE_PUBLIC_KEY 74752
#define MLDSA65_STACK_VERIFY_PREPARED 51200
#define MLDSA65_STACK_PREPARE_PRIVATE_KEY 98304
#define MLDSA65_STACK_SIGN_PREPARED 152576

/** Makes the key pair of a seed of MLDSA_SEED_LEN bytes. Whoever has the seed has the key.
 * Needs MLDSA65_STACK_KEYGEN bytes of stack.
 * @return MLDSA_DONE, MLDSA_WRONG_LENGTH, MLDSA_SAMPLING_LIMIT */
MLDSA_ANSWERS MLDSA_ARRAYS(1, 2)
uint32_t mldsa65_keygen(const uint8_t *seed, size_t seed_len, uint8_t *public_key, size_t public_key_len,
                        uint8_t *private_key, size_t private_key_len);

/** Signs a message under a context of at most 255 bytes. random has MLDSA_RANDOM_LEN bytes; with zeros the signature is the
 * deterministic one of the standard, the same each time. The hash tr that is signed with the message is the one in the private
 * key.
 * Needs MLDSA65_STACK_SIGN bytes of stack.
 * @return MLDSA_DONE, MLDSA_WRONG_LENGTH, MLDSA_KEY_RANGE, MLDSA_CONTEXT_TOO_LONG, MLDSA_SAMPLING_LIMIT,
 * MLDSA_TOO_MANY_ATTEMPTS */
MLDSA_ANSWERS MLDSA_ARRAYS(4, 1)
uint32_t mldsa65_sign(const uint8_t *private_key, size_t private_key_len, const uint8_t *message, size_t message_len,
                      const uint8_t *context, size_t context_len, const uint8_t *random, size_t random_len,
                      uint8_t *signature, size_t signature_len);

/** Tells whether the public key accepts the signature of the message under the context. Test for == MLDSA_YES and nothing else.
 * If the context has more than 255 bytes, the result is MLDSA_NO.
 * Needs MLDSA65_STACK_VERIFY bytes of stack.
 * @return MLDSA_YES, MLDSA_WRONG_LENGTH, MLDSA_NO */
MLDSA_ANSWERS MLDSA_ARRAYS(4, 0)
uint32_t mldsa65_verify(const uint8_t *public_key, size_t public_key_len, const uint8_t *message, size_t message_len,
                        const uint8_t *context, size_t context_len, const uint8_t *signature, size_t signature_len);

/** Tells the same as verify by 1 for yes and 0 for everything else, for languages in which 0 is false. Never compare the result
 * with MLDSA_YES.
 * Needs MLDSA65_STACK_VERIFY bytes of stack.
 * @return 1 or 0 */
MLDSA_ANSWERS MLDSA_ARRAYS(4, 0)
uint32_t mldsa65_accepts(const uint8_t *public_key, size_t public_key_len, const uint8_t *message, size_t message_len,
                         const uint8_t *context, size_t context_len, const uint8_t *signature, size_t signature_len);

/** Signs the digest of a message that you hashed, under a context of at most 255 bytes (HashML-DSA). oid names the hash
 * function, as MLDSA_OID_SHA2_512 with MLDSA_OID_LEN. If it is one of the twelve that FIPS 204 names, the digest must have its
 * length; with another, at most 1024 bytes. Whether the function is strong enough for the set (FIPS 204, 5.4) is not checked.
 * random is that of sign.
 * Needs MLDSA65_STACK_SIGN bytes of stack.
 * @return MLDSA_DONE, MLDSA_WRONG_LENGTH, MLDSA_KEY_RANGE, MLDSA_HASH_CONTEXT_TOO_LONG, MLDSA_OID_EMPTY, MLDSA_OID_NOT_DER,
 * MLDSA_DIGEST_TOO_LONG, MLDSA_DIGEST_LENGTH, MLDSA_SAMPLING_LIMIT, MLDSA_TOO_MANY_ATTEMPTS */
MLDSA_ANSWERS MLDSA_ARRAYS(5, 1)
uint32_t mldsa65_hash_sign(const uint8_t *private_key, size_t private_key_len,
                           const uint8_t *digest, size_t digest_len, const uint8_t *context, size_t context_len,
                           const uint8_t *oid, size_t oid_len, const uint8_t *random, size_t random_len,
                           uint8_t *signature, size_t signature_len);

/** Tells whether the public key accepts the signature that hash_sign made of the digest. If hash_sign would not sign this
 * digest with this oid, the result is MLDSA_NO.
 * Needs MLDSA65_STACK_VERIFY bytes of stack.
 * @return MLDSA_YES, MLDSA_WRONG_LENGTH, MLDSA_NO */
MLDSA_ANSWERS MLDSA_ARRAYS(5, 0)
uint32_t mldsa65_hash_verify(const uint8_t *public_key, size_t public_key_len,
                             const uint8_t *digest, size_t digest_len, const uint8_t *context, size_t context_len,
                             const uint8_t *oid, size_t oid_len, const uint8_t *signature, size_t signature_len);

/** Signs the message of which this is mu. mu has MLDSA_MU_LEN bytes: the first 64 bytes of SHAKE256 over tr, 00, the context's
 * length as a byte, the context and the message, where tr are the first 64 bytes of SHAKE256 over the public key. The
 * signature is the one that sign makes, if the private key keeps this tr. mldsa_mu_finish writes such a mu.
 * Needs MLDSA65_STACK_SIGN bytes of stack.
 * @return MLDSA_DONE, MLDSA_WRONG_LENGTH, MLDSA_KEY_RANGE, MLDSA_SAMPLING_LIMIT, MLDSA_TOO_MANY_ATTEMPTS */
MLDSA_ANSWERS MLDSA_ARRAYS(3, 1)
uint32_t mldsa65_sign_mu(const uint8_t *private_key, size_t private_key_len, const uint8_t *mu, size_t mu_len,
                         const uint8_t *random, size_t random_len, uint8_t *signature, size_t signature_len);

/** Tells whether the public key accepts the signature of the message of which this is mu, as sign_mu has it.
 * Needs MLDSA65_STACK_VERIFY bytes of stack.
 * @return MLDSA_YES, MLDSA_WRONG_LENGTH, MLDSA_NO */
MLDSA_ANSWERS MLDSA_ARRAYS(3, 0)
uint32_t mldsa65_verify_mu(const uint8_t *public_key, size_t public_key_len, const uint8_t *mu, size_t mu_len,
                           const uint8_t *signature, size_t signature_len);

/** Writes the public key that belongs to a private key.
 * Needs MLDSA65_STACK_PUBLIC_KEY bytes of stack.
 * @return MLDSA_DONE, MLDSA_WRONG_LENGTH, MLDSA_KEY_RANGE, MLDSA_SAMPLING_LIMIT */
MLDSA_ANSWERS MLDSA_ARRAYS(1, 1)
uint32_t mldsa65_public_key(const uint8_t *private_key, size_t private_key_len,
                            uint8_t *public_key, size_t public_key_len);

/** Tells whether the bytes are a private key at all, which each call with a private key checks too. Ask is_pair whether its
 * parts belong together.
 * Needs MLDSA65_STACK_CHECK bytes of stack.
 * @return MLDSA_DONE, MLDSA_WRONG_LENGTH, MLDSA_KEY_RANGE */
MLDSA_ANSWERS MLDSA_ARRAYS(1, 0)
uint32_t mldsa65_check_private_key(const uint8_t *private_key, size_t private_key_len);

/** Tells whether the part t0 of a private key belongs to its parts s1 and s2, and ignores its hash tr. You want is_pair, unless
 * you know why not.
 * Needs MLDSA65_STACK_WHOLE bytes of stack.
 * @return MLDSA_YES, MLDSA_WRONG_LENGTH, MLDSA_NO, MLDSA_KEY_RANGE, MLDSA_SAMPLING_LIMIT */
MLDSA_ANSWERS MLDSA_ARRAYS(1, 0)
uint32_t mldsa65_is_whole(const uint8_t *private_key, size_t private_key_len);

/** Tells whether the parts of a private key from elsewhere belong together. If so, whatever it signs is accepted under the
 * public key that public_key writes; keygen makes no other keys. If not, its t0 or tr is not its own, and what it signs may be
 * accepted or not.
 * Needs MLDSA65_STACK_PAIR bytes of stack.
 * @return MLDSA_YES, MLDSA_WRONG_LENGTH, MLDSA_NO, MLDSA_KEY_RANGE, MLDSA_SAMPLING_LIMIT */
MLDSA_ANSWERS MLDSA_ARRAYS(1, 0)
uint32_t mldsa65_is_pair(const uint8_t *private_key, size_t private_key_len);

/** Begins a message in pieces, under a context of at most 255 bytes, for the public key that verifies it: writes a state of
 * MLDSA_STATE_LEN bytes. Then mldsa_mu_update adds pieces, and mldsa_mu_finish writes mu.
 * Needs MLDSA_STACK_MU bytes of stack.
 * @return MLDSA_DONE, MLDSA_WRONG_LENGTH, MLDSA_CONTEXT_TOO_LONG */
MLDSA_ANSWERS MLDSA_ARRAYS(2, 1)
uint32_t mldsa65_mu_begin(const uint8_t *public_key, size_t public_key_len, const uint8_t *context, size_t context_len,
                          uint8_t *state, size_t state_len);

/** Begins a message in pieces as mu_begin does, for the private key that signs it, with the hash tr that this keeps.
 * Needs MLDSA_STACK_MU bytes of stack.
 * @return MLDSA_DONE, MLDSA_WRONG_LENGTH, MLDSA_CONTEXT_TOO_LONG */
MLDSA_ANSWERS MLDSA_ARRAYS(2, 1)
uint32_t mldsa65_mu_begin_private(const uint8_t *private_key, size_t private_key_len,
                                  const uint8_t *context, size_t context_len, uint8_t *state, size_t state_len);

/** Writes a prepared public key: the bytes of the key, and behind them what each call would compute from them anew. Keep it
 * where nobody can change it: a changed one may accept what nobody signed.
 * Needs MLDSA65_STACK_PREPARE_PUBLIC_KEY bytes of stack.
 * @return MLDSA_DONE, MLDSA_WRONG_LENGTH, MLDSA_SAMPLING_LIMIT */
MLDSA_ANSWERS MLDSA_ARRAYS(1, 1)
uint32_t mldsa65_prepare_public_key(const uint8_t *public_key, size_t public_key_len,
                                    uint8_t *prepared_public_key, size_t prepared_public_key_len);

/** Writes a prepared private key: the bytes of the key, and behind them what each call would compute from them anew. Keep it as
 * secret as the private key, and where nobody can change it: what a changed one signs may tell the key.
 * Needs MLDSA65_STACK_PREPARE_PRIVATE_KEY bytes of stack.
 * @return MLDSA_DONE, MLDSA_WRONG_LENGTH, MLDSA_KEY_RANGE, MLDSA_SAMPLING_LIMIT */
MLDSA_ANSWERS MLDSA_ARRAYS(1, 1)
uint32_t mldsa65_prepare_private_key(const uint8_t *private_key, size_t private_key_len,
                                     uint8_t *prepared_private_key, size_t prepared_private_key_len);

/** Does what sign does with the key that was prepared, in less time. Any bytes are safe in a prepared key, but nothing
 * checks that its parts belong together: MLDSA_NOT_PREPARED says that a value of its matrix is 8380417 or more, or that a
 * coefficient of s1 or s2 is out of range. With the matrix or tr of another key, which no call writes, the signature means nothing.
 * Needs MLDSA65_STACK_SIGN_PREPARED bytes of stack.
 * @return MLDSA_DONE, MLDSA_WRONG_LENGTH, MLDSA_NOT_PREPARED, MLDSA_CONTEXT_TOO_LONG, MLDSA_SAMPLING_LIMIT,
 * MLDSA_TOO_MANY_ATTEMPTS */
MLDSA_ANSWERS MLDSA_ARRAYS(4, 1)
uint32_t mldsa65_sign_prepared(const uint8_t *prepared_private_key, size_t prepared_private_key_len,
                               const uint8_t *message, size_t message_len, const uint8_t *context, size_t context_len,
                               const uint8_t *random, size_t random_len, uint8_t *signature, size_t signature_len);

/** Does what verify does with the key that was prepared, in less time. Any bytes are safe in a prepared key, but nothing
 * checks that its parts belong together: MLDSA_NOT_PREPARED says that a value of its matrix is 8380417 or more. With the
 * matrix or tr of another key, which no call writes, the verdict means nothing.
 * Needs MLDSA65_STACK_VERIFY_PREPARED bytes of stack.
 * @return MLDSA_YES, MLDSA_WRONG_LENGTH, MLDSA_NO, MLDSA_NOT_PREPARED */
MLDSA_ANSWERS MLDSA_ARRAYS(4, 0)
uint32_t mldsa65_verify_prepared(const uint8_t *prepared_public_key, size_t prepared_public_key_len,
                                 const uint8_t *message, size_t message_len, const uint8_t *context, size_t context_len,
                                 const uint8_t *signature, size_t signature_len);

/** Does what hash_sign does with the key that was prepared.
 * Needs MLDSA65_STACK_SIGN_PREPARED bytes of stack.
 * @return MLDSA_DONE, MLDSA_WRONG_LENGTH, MLDSA_NOT_PREPARED, MLDSA_HASH_CONTEXT_TOO_LONG, MLDSA_OID_EMPTY, MLDSA_OID_NOT_DER,
 * MLDSA_DIGEST_TOO_LONG, MLDSA_DIGEST_LENGTH, MLDSA_SAMPLING_LIMIT, MLDSA_TOO_MANY_ATTEMPTS */
MLDSA_ANSWERS MLDSA_ARRAYS(5, 1)
uint32_t mldsa65_hash_sign_prepared(const uint8_t *prepared_private_key, size_t prepared_private_key_len,
                                    const uint8_t *digest, size_t digest_len, const uint8_t *context, size_t context_len,
                                    const uint8_t *oid, size_t oid_len, const uint8_t *random, size_t random_len,
                                    uint8_t *signature, size_t signature_len);

/** Does what hash_verify does with the key that was prepared.
 * Needs MLDSA65_STACK_VERIFY_PREPARED bytes of stack.
 * @return MLDSA_YES, MLDSA_WRONG_LENGTH, MLDSA_NO, MLDSA_NOT_PREPARED */
MLDSA_ANSWERS MLDSA_ARRAYS(5, 0)
uint32_t mldsa65_hash_verify_prepared(const uint8_t *prepared_public_key, size_t prepared_public_key_len,
                                      const uint8_t *digest, size_t digest_len, const uint8_t *context, size_t context_len,
                                      const uint8_t *oid, size_t oid_len, const uint8_t *signature, size_t signature_len);

/** Does what sign_mu does with the key that was prepared.
 * Needs MLDSA65_STACK_SIGN_PREPARED bytes of stack.
 * @return MLDSA_DONE, MLDSA_WRONG_LENGTH, MLDSA_NOT_PREPARED, MLDSA_SAMPLING_LIMIT, MLDSA_TOO_MANY_ATTEMPTS */
MLDSA_ANSWERS MLDSA_ARRAYS(3, 1)
uint32_t mldsa65_sign_mu_prepared(const uint8_t *prepared_private_key, size_t prepared_private_key_len,
                                  const uint8_t *mu, size_t mu_len, const uint8_t *random, size_t random_len,
                                  uint8_t *signature, size_t signature_len);

/** Does what verify_mu does with the key that was prepared.
 * Needs MLDSA65_STACK_VERIFY_PREPARED bytes of stack.
 * @return MLDSA_YES, MLDSA_WRONG_LENGTH, MLDSA_NO, MLDSA_NOT_PREPARED */
MLDSA_ANSWERS MLDSA_ARRAYS(3, 0)
uint32_t mldsa65_verify_mu_prepared(const uint8_t *prepared_public_key, size_t prepared_public_key_len,
                                    const uint8_t *mu, size_t mu_len, const uint8_t *signature, size_t signature_len);

/* ML-DSA-87. */

#define MLDSA87_PUBLIC_KEY_LEN 2592
#define MLDSA87_PRIVATE_KEY_LEN 4896
#define MLDSA87_SIGNATURE_LEN 4627
#define MLDSA87_PREPARED_PUBLIC_KEY_LEN 60000
#define MLDSA87_PREPARED_PRIVATE_KEY_LEN 62240

#define MLDSA87_STACK_KEYGEN 92160
#define MLDSA87_STACK_SIGN 208896
#define MLDSA87_STACK_VERIFY 79872
#define MLDSA87_STACK_PUBLIC_KEY 168960
#define MLDSA87_STACK_CHECK 92160
#define MLDSA87_STACK_WHOLE 137216
#define MLDSA87_STACK_PAIR 146432
#define MLDSA87_STACK_PREPARE_PUBLIC_KEY 115712
#define MLDSA87_STACK_VERIFY_PREPARED 66560
#define MLDSA87_STACK_PREPARE_PRIVATE_KEY 143360
#define MLDSA87_STACK_SIGN_PREPARED 208896

/** Makes the key pair of a seed of MLDSA_SEED_LEN bytes. Whoever has the seed has the key.
 * Needs MLDSA87_STACK_KEYGEN bytes of stack.
 * @return MLDSA_DONE, MLDSA_WRONG_LENGTH, MLDSA_SAMPLING_LIMIT */
MLDSA_ANSWERS MLDSA_ARRAYS(1, 2)
uint32_t mldsa87_keygen(const uint8_t *seed, size_t seed_len, uint8_t *public_key, size_t public_key_len,
                        uint8_t *private_key, size_t private_key_len);

/** Signs a message under a context of at most 255 bytes. random has MLDSA_RANDOM_LEN bytes; with zeros the signature is the
 * deterministic one of the standard, the same each time. The hash tr that is signed with the message is the one in the private
 * key.
 * Needs MLDSA87_STACK_SIGN bytes of stack.
 * @return MLDSA_DONE, MLDSA_WRONG_LENGTH, MLDSA_KEY_RANGE, MLDSA_CONTEXT_TOO_LONG, MLDSA_SAMPLING_LIMIT,
 * MLDSA_TOO_MANY_ATTEMPTS */
MLDSA_ANSWERS MLDSA_ARRAYS(4, 1)
uint32_t mldsa87_sign(const uint8_t *private_key, size_t private_key_len, const uint8_t *message, size_t message_len,
                      const uint8_t *context, size_t context_len, const uint8_t *random, size_t random_len,
                      uint8_t *signature, size_t signature_len);

/** Tells whether the public key accepts the signature of the message under the context. Test for == MLDSA_YES and nothing else.
 * If the context has more than 255 bytes, the result is MLDSA_NO.
 * Needs MLDSA87_STACK_VERIFY bytes of stack.
 * @return MLDSA_YES, MLDSA_WRONG_LENGTH, MLDSA_NO */
MLDSA_ANSWERS MLDSA_ARRAYS(4, 0)
uint32_t mldsa87_verify(const uint8_t *public_key, size_t public_key_len, const uint8_t *message, size_t message_len,
                        const uint8_t *context, size_t context_len, const uint8_t *signature, size_t signature_len);

/** Tells the same as verify by 1 for yes and 0 for everything else, for languages in which 0 is false. Never compare the result
 * with MLDSA_YES.
 * Needs MLDSA87_STACK_VERIFY bytes of stack.
 * @return 1 or 0 */
MLDSA_ANSWERS MLDSA_ARRAYS(4, 0)
uint32_t mldsa87_accepts(const uint8_t *public_key, size_t public_key_len, const uint8_t *message, size_t message_len,
                         const uint8_t *context, size_t context_len, const uint8_t *signature, size_t signature_len);

/** Signs the digest of a message that you hashed, under a context of at most 255 bytes (HashML-DSA). oid names the hash
 * function, as MLDSA_OID_SHA2_512 with MLDSA_OID_LEN. If it is one of the twelve that FIPS 204 names, the digest must have its
 * length; with another, at most 1024 bytes. Whether the function is strong enough for the set (FIPS 204, 5.4) is not checked.
 * random is that of sign.
 * Needs MLDSA87_STACK_SIGN bytes of stack.
 * @return MLDSA_DONE, MLDSA_WRONG_LENGTH, MLDSA_KEY_RANGE, MLDSA_HASH_CONTEXT_TOO_LONG, MLDSA_OID_EMPTY, MLDSA_OID_NOT_DER,
 * MLDSA_DIGEST_TOO_LONG, MLDSA_DIGEST_LENGTH, MLDSA_SAMPLING_LIMIT, MLDSA_TOO_MANY_ATTEMPTS */
MLDSA_ANSWERS MLDSA_ARRAYS(5, 1)
uint32_t mldsa87_hash_sign(const uint8_t *private_key, size_t private_key_len,
                           const uint8_t *digest, size_t digest_len, const uint8_t *context, size_t context_len,
                           const uint8_t *oid, size_t oid_len, const uint8_t *random, size_t random_len,
                           uint8_t *signature, size_t signature_len);

/** Tells whether the public key accepts the signature that hash_sign made of the digest. If hash_sign would not sign this
 * digest with this oid, the result is MLDSA_NO.
 * Needs MLDSA87_STACK_VERIFY bytes of stack.
 * @return MLDSA_YES, MLDSA_WRONG_LENGTH, MLDSA_NO */
MLDSA_ANSWERS MLDSA_ARRAYS(5, 0)
uint32_t mldsa87_hash_verify(const uint8_t *public_key, size_t public_key_len,
                             const uint8_t *digest, size_t digest_len, const uint8_t *context, size_t context_len,
                             const uint8_t *oid, size_t oid_len, const uint8_t *signature, size_t signature_len);

/** Signs the message of which this is mu. mu has MLDSA_MU_LEN bytes: the first 64 bytes of SHAKE256 over tr, 00, the context's
 * length as a byte, the context and the message, where tr are the first 64 bytes of SHAKE256 over the public key. The
 * signature is the one that sign makes, if the private key keeps this tr. mldsa_mu_finish writes such a mu.
 * Needs MLDSA87_STACK_SIGN bytes of stack.
 * @return MLDSA_DONE, MLDSA_WRONG_LENGTH, MLDSA_KEY_RANGE, MLDSA_SAMPLING_LIMIT, MLDSA_TOO_MANY_ATTEMPTS */
MLDSA_ANSWERS MLDSA_ARRAYS(3, 1)
uint32_t mldsa87_sign_mu(const uint8_t *private_key, size_t private_key_len, const uint8_t *mu, size_t mu_len,
                         const uint8_t *random, size_t random_len, uint8_t *signature, size_t signature_len);

/** Tells whether the public key accepts the signature of the message of which this is mu, as sign_mu has it.
 * Needs MLDSA87_STACK_VERIFY bytes of stack.
 * @return MLDSA_YES, MLDSA_WRONG_LENGTH, MLDSA_NO */
MLDSA_ANSWERS MLDSA_ARRAYS(3, 0)
uint32_t mldsa87_verify_mu(const uint8_t *public_key, size_t public_key_len, const uint8_t *mu, size_t mu_len,
                           const uint8_t *signature, size_t signature_len);

/** Writes the public key that belongs to a private key.
 * Needs MLDSA87_STACK_PUBLIC_KEY bytes of stack.
 * @return MLDSA_DONE, MLDSA_WRONG_LENGTH, MLDSA_KEY_RANGE, MLDSA_SAMPLING_LIMIT */
MLDSA_ANSWERS MLDSA_ARRAYS(1, 1)
uint32_t mldsa87_public_key(const uint8_t *private_key, size_t private_key_len,
                            uint8_t *public_key, size_t public_key_len);

/** Tells whether the bytes are a private key at all, which each call with a private key checks too. Ask is_pair whether its
 * parts belong together.
 * Needs MLDSA87_STACK_CHECK bytes of stack.
 * @return MLDSA_DONE, MLDSA_WRONG_LENGTH, MLDSA_KEY_RANGE */
MLDSA_ANSWERS MLDSA_ARRAYS(1, 0)
uint32_t mldsa87_check_private_key(const uint8_t *private_key, size_t private_key_len);

/** Tells whether the part t0 of a private key belongs to its parts s1 and s2, and ignores its hash tr. You want is_pair, unless
 * you know why not.
 * Needs MLDSA87_STACK_WHOLE bytes of stack.
 * @return MLDSA_YES, MLDSA_WRONG_LENGTH, MLDSA_NO, MLDSA_KEY_RANGE, MLDSA_SAMPLING_LIMIT */
MLDSA_ANSWERS MLDSA_ARRAYS(1, 0)
uint32_t mldsa87_is_whole(const uint8_t *private_key, size_t private_key_len);

/** Tells whether the parts of a private key from elsewhere belong together. If so, whatever it signs is accepted under the
 * public key that public_key writes; keygen makes no other keys. If not, its t0 or tr is not its own, and what it signs may be
 * accepted or not.
 * Needs MLDSA87_STACK_PAIR bytes of stack.
 * @return MLDSA_YES, MLDSA_WRONG_LENGTH, MLDSA_NO, MLDSA_KEY_RANGE, MLDSA_SAMPLING_LIMIT */
MLDSA_ANSWERS MLDSA_ARRAYS(1, 0)
uint32_t mldsa87_is_pair(const uint8_t *private_key, size_t private_key_len);

/** Begins a message in pieces, under a context of at most 255 bytes, for the public key that verifies it: writes a state of
 * MLDSA_STATE_LEN bytes. Then mldsa_mu_update adds pieces, and mldsa_mu_finish writes mu.
 * Needs MLDSA_STACK_MU bytes of stack.
 * @return MLDSA_DONE, MLDSA_WRONG_LENGTH, MLDSA_CONTEXT_TOO_LONG */
MLDSA_ANSWERS MLDSA_ARRAYS(2, 1)
uint32_t mldsa87_mu_begin(const uint8_t *public_key, size_t public_key_len, const uint8_t *context, size_t context_len,
                          uint8_t *state, size_t state_len);

/** Begins a message in pieces as mu_begin does, for the private key that signs it, with the hash tr that this keeps.
 * Needs MLDSA_STACK_MU bytes of stack.
 * @return MLDSA_DONE, MLDSA_WRONG_LENGTH, MLDSA_CONTEXT_TOO_LONG */
MLDSA_ANSWERS MLDSA_ARRAYS(2, 1)
uint32_t mldsa87_mu_begin_private(const uint8_t *private_key, size_t private_key_len,
                                  const uint8_t *context, size_t context_len, uint8_t *state, size_t state_len);

/** Writes a prepared public key: the bytes of the key, and behind them what each call would compute from them anew. Keep it
 * where nobody can change it: a changed one may accept what nobody signed.
 * Needs MLDSA87_STACK_PREPARE_PUBLIC_KEY bytes of stack.
 * @return MLDSA_DONE, MLDSA_WRONG_LENGTH, MLDSA_SAMPLING_LIMIT */
MLDSA_ANSWERS MLDSA_ARRAYS(1, 1)
uint32_t mldsa87_prepare_public_key(const uint8_t *public_key, size_t public_key_len,
                                    uint8_t *prepared_public_key, size_t prepared_public_key_len);

/** Writes a prepared private key: the bytes of the key, and behind them what each call would compute from them anew. Keep it as
 * secret as the private key, and where nobody can change it: what a changed one signs may tell the key.
 * Needs MLDSA87_STACK_PREPARE_PRIVATE_KEY bytes of stack.
 * @return MLDSA_DONE, MLDSA_WRONG_LENGTH, MLDSA_KEY_RANGE, MLDSA_SAMPLING_LIMIT */
MLDSA_ANSWERS MLDSA_ARRAYS(1, 1)
uint32_t mldsa87_prepare_private_key(const uint8_t *private_key, size_t private_key_len,
                                     uint8_t *prepared_private_key, size_t prepared_private_key_len);

/** Does what sign does with the key that was prepared, in less time. Any bytes are safe in a prepared key, but nothing
 * checks that its parts belong together: MLDSA_NOT_PREPARED says that a value of its matrix is 8380417 or more, or that a
 * coefficient of s1 or s2 is out of range. With the matrix or tr of another key, which no call writes, the signature means nothing.
 * Needs MLDSA87_STACK_SIGN_PREPARED bytes of stack.
 * @return MLDSA_DONE, MLDSA_WRONG_LENGTH, MLDSA_NOT_PREPARED, MLDSA_CONTEXT_TOO_LONG, MLDSA_SAMPLING_LIMIT,
 * MLDSA_TOO_MANY_ATTEMPTS */
MLDSA_ANSWERS MLDSA_ARRAYS(4, 1)
uint32_t mldsa87_sign_prepared(const uint8_t *prepared_private_key, size_t prepared_private_key_len,
                               const uint8_t *message, size_t message_len, const uint8_t *context, size_t context_len,
                               const uint8_t *random, size_t random_len, uint8_t *signature, size_t signature_len);

/** Does what verify does with the key that was prepared, in less time. Any bytes are safe in a prepared key, but nothing
 * checks that its parts belong together: MLDSA_NOT_PREPARED says that a value of its matrix is 8380417 or more. With the
 * matrix or tr of another key, which no call writes, the verdict means nothing.
 * Needs MLDSA87_STACK_VERIFY_PREPARED bytes of stack.
 * @return MLDSA_YES, MLDSA_WRONG_LENGTH, MLDSA_NO, MLDSA_NOT_PREPARED */
MLDSA_ANSWERS MLDSA_ARRAYS(4, 0)
uint32_t mldsa87_verify_prepared(const uint8_t *prepared_public_key, size_t prepared_public_key_len,
                                 const uint8_t *message, size_t message_len, const uint8_t *context, size_t context_len,
                                 const uint8_t *signature, size_t signature_len);

/** Does what hash_sign does with the key that was prepared.
 * Needs MLDSA87_STACK_SIGN_PREPARED bytes of stack.
 * @return MLDSA_DONE, MLDSA_WRONG_LENGTH, MLDSA_NOT_PREPARED, MLDSA_HASH_CONTEXT_TOO_LONG, MLDSA_OID_EMPTY, MLDSA_OID_NOT_DER,
 * MLDSA_DIGEST_TOO_LONG, MLDSA_DIGEST_LENGTH, MLDSA_SAMPLING_LIMIT, MLDSA_TOO_MANY_ATTEMPTS */
MLDSA_ANSWERS MLDSA_ARRAYS(5, 1)
uint32_t mldsa87_hash_sign_prepared(const uint8_t *prepared_private_key, size_t prepared_private_key_len,
                                    const uint8_t *digest, size_t digest_len, const uint8_t *context, size_t context_len,
                                    const uint8_t *oid, size_t oid_len, const uint8_t *random, size_t random_len,
                                    uint8_t *signature, size_t signature_len);

/** Does what hash_verify does with the key that was prepared.
 * Needs MLDSA87_STACK_VERIFY_PREPARED bytes of stack.
 * @return MLDSA_YES, MLDSA_WRONG_LENGTH, MLDSA_NO, MLDSA_NOT_PREPARED */
MLDSA_ANSWERS MLDSA_ARRAYS(5, 0)
uint32_t mldsa87_hash_verify_prepared(const uint8_t *prepared_public_key, size_t prepared_public_key_len,
                                      const uint8_t *digest, size_t digest_len, const uint8_t *context, size_t context_len,
                                      const uint8_t *oid, size_t oid_len, const uint8_t *signature, size_t signature_len);

/** Does what sign_mu does with the key that was prepared.
 * Needs MLDSA87_STACK_SIGN_PREPARED bytes of stack.
 * @return MLDSA_DONE, MLDSA_WRONG_LENGTH, MLDSA_NOT_PREPARED, MLDSA_SAMPLING_LIMIT, MLDSA_TOO_MANY_ATTEMPTS */
MLDSA_ANSWERS MLDSA_ARRAYS(3, 1)
uint32_t mldsa87_sign_mu_prepared(const uint8_t *prepared_private_key, size_t prepared_private_key_len,
                                  const uint8_t *mu, size_t mu_len, const uint8_t *random, size_t random_len,
                                  uint8_t *signature, size_t signature_len);

/** Does what verify_mu does with the key that was prepared.
 * Needs MLDSA87_STACK_VERIFY_PREPARED bytes of stack.
 * @return MLDSA_YES, MLDSA_WRONG_LENGTH, MLDSA_NO, MLDSA_NOT_PREPARED */
MLDSA_ANSWERS MLDSA_ARRAYS(3, 0)
uint32_t mldsa87_verify_mu_prepared(const uint8_t *prepared_public_key, size_t prepared_public_key_len,
                                    const uint8_t *mu, size_t mu_len, const uint8_t *signature, size_t signature_len);

/* Keys in DER, at each set. */

#define MLDSA44_PUBLIC_KEY_DER_LEN 1334
#define MLDSA44_PRIVATE_KEY_DER_LEN 2588
#define MLDSA44_BOTH_DER_LEN 2626
#define MLDSA44_STACK_DER 81920
#define MLDSA44_STACK_PEM 87040

#define MLDSA65_PUBLIC_KEY_DER_LEN 1974
#define MLDSA65_PRIVATE_KEY_DER_LEN 4060
#define MLDSA65_BOTH_DER_LEN 4098
#define MLDSA65_STACK_DER 113664
#define MLDSA65_STACK_PEM 119808

#define MLDSA87_PUBLIC_KEY_DER_LEN 2614
#define MLDSA87_PRIVATE_KEY_DER_LEN 4924
#define MLDSA87_BOTH_DER_LEN 4962
#define MLDSA87_STACK_DER 151552
#define MLDSA87_STACK_PEM 157696

/** Writes a public key as files have it: the DER of a SubjectPublicKeyInfo (RFC 9881, section 4), of MLDSA44_PUBLIC_KEY_DER_LEN
 * bytes.
 * Needs MLDSA44_STACK_DER bytes of stack.
 * @return MLDSA_DONE or MLDSA_WRONG_LENGTH */
MLDSA_ANSWERS MLDSA_ARRAYS(1, 1)
uint32_t mldsa44_public_key_to_der(const uint8_t *public_key, size_t public_key_len,
                                   uint8_t *public_key_der, size_t public_key_der_len);

/** Reads a public key of a file of any length. DER has one form; every other file is reported by its first fault.
 * Needs MLDSA44_STACK_DER bytes of stack.
 * @return MLDSA_DONE, MLDSA_WRONG_LENGTH, MLDSA_DER_CUT_SHORT, MLDSA_DER_TRAILING, MLDSA_DER_DAMAGED, MLDSA_DER_ALGORITHM,
 * MLDSA_DER_KEY_LENGTH, MLDSA_OTHER_SET */
MLDSA_ANSWERS MLDSA_ARRAYS(1, 1)
uint32_t mldsa44_public_key_from_der(const uint8_t *public_key_der, size_t public_key_der_len,
                                     uint8_t *public_key, size_t public_key_len);

/** Writes a private key as files have it, not encrypted: the DER of a OneAsymmetricKey of version 0 (RFC 9881, section 6; also
 * called PKCS #8) with the seed, of MLDSA_SEED_DER_LEN bytes.
 * Needs MLDSA44_STACK_DER bytes of stack.
 * @return MLDSA_DONE or MLDSA_WRONG_LENGTH */
MLDSA_ANSWERS MLDSA_ARRAYS(1, 1)
uint32_t mldsa44_seed_to_der(const uint8_t *seed, size_t seed_len, uint8_t *seed_der, size_t seed_der_len);

/** Writes such a file with the expanded key, of MLDSA44_PRIVATE_KEY_DER_LEN bytes. The key has to be one to which is_pair says
 * yes.
 * Needs MLDSA44_STACK_DER bytes of stack.
 * @return MLDSA_DONE, MLDSA_WRONG_LENGTH, MLDSA_INCONSISTENT, MLDSA_SAMPLING_LIMIT */
MLDSA_ANSWERS MLDSA_ARRAYS(1, 1)
uint32_t mldsa44_private_key_to_der(const uint8_t *private_key, size_t private_key_len,
                                    uint8_t *private_key_der, size_t private_key_der_len);

/** Writes such a file with the seed and the expanded key that it generates, of MLDSA44_BOTH_DER_LEN bytes.
 * Needs MLDSA44_STACK_DER bytes of stack.
 * @return MLDSA_DONE, MLDSA_WRONG_LENGTH, MLDSA_SAMPLING_LIMIT */
MLDSA_ANSWERS MLDSA_ARRAYS(1, 1)
uint32_t mldsa44_both_to_der(const uint8_t *seed, size_t seed_len, uint8_t *both_der, size_t both_der_len);

/** Reads the expanded private key of a file of any length, in any of the three forms. It rejects an expanded key that the seed
 * beside it does not generate, and one that stands alone and to which is_pair does not say yes. To load a key, ask
 * seed_from_der first, and this if the result is MLDSA_NO_SEED. If you don't know the set, ask at each as long as the result
 * is MLDSA_OTHER_SET.
 * Needs MLDSA44_STACK_DER bytes of stack.
 * @return MLDSA_DONE, MLDSA_WRONG_LENGTH, MLDSA_DER_CUT_SHORT, MLDSA_DER_TRAILING, MLDSA_DER_DAMAGED, MLDSA_DER_VERSION,
 * MLDSA_DER_ALGORITHM, MLDSA_DER_KEY_LENGTH, MLDSA_OTHER_SET, MLDSA_INCONSISTENT, MLDSA_SAMPLING_LIMIT */
MLDSA_ANSWERS MLDSA_ARRAYS(1, 1)
uint32_t mldsa44_private_key_from_der(const uint8_t *private_key_der, size_t private_key_der_len,
                                      uint8_t *private_key, size_t private_key_len);

/** Reads the seed of a private key's file of any length. It rejects an expanded key that the seed beside it does not generate,
 * and does not look at one that stands alone.
 * Needs MLDSA44_STACK_DER bytes of stack.
 * @return MLDSA_DONE, MLDSA_WRONG_LENGTH, MLDSA_NO_SEED, MLDSA_DER_CUT_SHORT, MLDSA_DER_TRAILING, MLDSA_DER_DAMAGED,
 * MLDSA_DER_VERSION, MLDSA_DER_ALGORITHM, MLDSA_DER_KEY_LENGTH, MLDSA_OTHER_SET, MLDSA_INCONSISTENT, MLDSA_SAMPLING_LIMIT */
MLDSA_ANSWERS MLDSA_ARRAYS(1, 1)
uint32_t mldsa44_seed_from_der(const uint8_t *seed_der, size_t seed_der_len, uint8_t *seed, size_t seed_len);

/** Reads a public key of a text in PEM (RFC 7468) of any length. Text may stand before its first line and behind its last one, and
 * white space anywhere between them; a second text behind it is rejected. What it spells is read as public_key_from_der reads it.
 * Needs MLDSA44_STACK_PEM bytes of stack.
 * @return MLDSA_DONE, MLDSA_WRONG_LENGTH, MLDSA_PEM_MISSING, MLDSA_PEM_ENCRYPTED, MLDSA_PEM_CERTIFICATE, MLDSA_PEM_OTHER_KIND,
 * MLDSA_PEM_OTHER_LABEL, MLDSA_PEM_CUT_SHORT, MLDSA_PEM_TRAILING, MLDSA_PEM_DAMAGED, MLDSA_DER_CUT_SHORT, MLDSA_DER_TRAILING,
 * MLDSA_DER_DAMAGED, MLDSA_DER_ALGORITHM, MLDSA_DER_KEY_LENGTH, MLDSA_OTHER_SET */
MLDSA_ANSWERS MLDSA_ARRAYS(1, 1)
uint32_t mldsa44_public_key_from_pem(const uint8_t *public_key_pem, size_t public_key_pem_len,
                                     uint8_t *public_key, size_t public_key_len);

/** Reads the expanded private key of such a text, as private_key_from_der reads it. One that is encrypted has to be decrypted
 * first.
 * Needs MLDSA44_STACK_PEM bytes of stack.
 * @return MLDSA_DONE, MLDSA_WRONG_LENGTH, MLDSA_PEM_MISSING, MLDSA_PEM_ENCRYPTED, MLDSA_PEM_CERTIFICATE, MLDSA_PEM_OTHER_KIND,
 * MLDSA_PEM_OTHER_LABEL, MLDSA_PEM_CUT_SHORT, MLDSA_PEM_TRAILING, MLDSA_PEM_DAMAGED, MLDSA_DER_CUT_SHORT, MLDSA_DER_TRAILING,
 * MLDSA_DER_DAMAGED, MLDSA_DER_VERSION, MLDSA_DER_ALGORITHM, MLDSA_DER_KEY_LENGTH, MLDSA_OTHER_SET, MLDSA_INCONSISTENT,
 * MLDSA_SAMPLING_LIMIT */
MLDSA_ANSWERS MLDSA_ARRAYS(1, 1)
uint32_t mldsa44_private_key_from_pem(const uint8_t *private_key_pem, size_t private_key_pem_len,
                                      uint8_t *private_key, size_t private_key_len);

/** Reads the seed of a private key's text, as seed_from_der reads it.
 * Needs MLDSA44_STACK_PEM bytes of stack.
 * @return MLDSA_DONE, MLDSA_WRONG_LENGTH, MLDSA_NO_SEED, MLDSA_PEM_MISSING, MLDSA_PEM_ENCRYPTED, MLDSA_PEM_CERTIFICATE,
 * MLDSA_PEM_OTHER_KIND, MLDSA_PEM_OTHER_LABEL, MLDSA_PEM_CUT_SHORT, MLDSA_PEM_TRAILING, MLDSA_PEM_DAMAGED, MLDSA_DER_CUT_SHORT,
 * MLDSA_DER_TRAILING, MLDSA_DER_DAMAGED, MLDSA_DER_VERSION, MLDSA_DER_ALGORITHM, MLDSA_DER_KEY_LENGTH, MLDSA_OTHER_SET,
 * MLDSA_INCONSISTENT, MLDSA_SAMPLING_LIMIT */
MLDSA_ANSWERS MLDSA_ARRAYS(1, 1)
uint32_t mldsa44_seed_from_pem(const uint8_t *seed_pem, size_t seed_pem_len, uint8_t *seed, size_t seed_len);

/** Writes a public key as files have it: the DER of a SubjectPublicKeyInfo (RFC 9881, section 4), of MLDSA65_PUBLIC_KEY_DER_LEN
 * bytes.
 * Needs MLDSA65_STACK_DER bytes of stack.
 * @return MLDSA_DONE or MLDSA_WRONG_LENGTH */
MLDSA_ANSWERS MLDSA_ARRAYS(1, 1)
uint32_t mldsa65_public_key_to_der(const uint8_t *public_key, size_t public_key_len,
                                   uint8_t *public_key_der, size_t public_key_der_len);

/** Reads a public key of a file of any length. DER has one form; every other file is reported by its first fault.
 * Needs MLDSA65_STACK_DER bytes of stack.
 * @return MLDSA_DONE, MLDSA_WRONG_LENGTH, MLDSA_DER_CUT_SHORT, MLDSA_DER_TRAILING, MLDSA_DER_DAMAGED, MLDSA_DER_ALGORITHM,
 * MLDSA_DER_KEY_LENGTH, MLDSA_OTHER_SET */
MLDSA_ANSWERS MLDSA_ARRAYS(1, 1)
uint32_t mldsa65_public_key_from_der(const uint8_t *public_key_der, size_t public_key_der_len,
                                     uint8_t *public_key, size_t public_key_len);

/** Writes a private key as files have it, not encrypted: the DER of a OneAsymmetricKey of version 0 (RFC 9881, section 6; also
 * called PKCS #8) with the seed, of MLDSA_SEED_DER_LEN bytes.
 * Needs MLDSA65_STACK_DER bytes of stack.
 * @return MLDSA_DONE or MLDSA_WRONG_LENGTH */
MLDSA_ANSWERS MLDSA_ARRAYS(1, 1)
uint32_t mldsa65_seed_to_der(const uint8_t *seed, size_t seed_len, uint8_t *seed_der, size_t seed_der_len);

/** Writes such a file with the expanded key, of MLDSA65_PRIVATE_KEY_DER_LEN bytes. The key has to be one to which is_pair says
 * yes.
 * Needs MLDSA65_STACK_DER bytes of stack.
 * @return MLDSA_DONE, MLDSA_WRONG_LENGTH, MLDSA_INCONSISTENT, MLDSA_SAMPLING_LIMIT */
MLDSA_ANSWERS MLDSA_ARRAYS(1, 1)
uint32_t mldsa65_private_key_to_der(const uint8_t *private_key, size_t private_key_len,
                                    uint8_t *private_key_der, size_t private_key_der_len);

/** Writes such a file with the seed and the expanded key that it generates, of MLDSA65_BOTH_DER_LEN bytes.
 * Needs MLDSA65_STACK_DER bytes of stack.
 * @return MLDSA_DONE, MLDSA_WRONG_LENGTH, MLDSA_SAMPLING_LIMIT */
MLDSA_ANSWERS MLDSA_ARRAYS(1, 1)
uint32_t mldsa65_both_to_der(const uint8_t *seed, size_t seed_len, uint8_t *both_der, size_t both_der_len);

/** Reads the expanded private key of a file of any length, in any of the three forms. It rejects an expanded key that the seed
 * beside it does not generate, and one that stands alone and to which is_pair does not say yes. To load a key, ask
 * seed_from_der first, and this if the result is MLDSA_NO_SEED. If you don't know the set, ask at each as long as the result
 * is MLDSA_OTHER_SET.
 * Needs MLDSA65_STACK_DER bytes of stack.
 * @return MLDSA_DONE, MLDSA_WRONG_LENGTH, MLDSA_DER_CUT_SHORT, MLDSA_DER_TRAILING, MLDSA_DER_DAMAGED, MLDSA_DER_VERSION,
 * MLDSA_DER_ALGORITHM, MLDSA_DER_KEY_LENGTH, MLDSA_OTHER_SET, MLDSA_INCONSISTENT, MLDSA_SAMPLING_LIMIT */
MLDSA_ANSWERS MLDSA_ARRAYS(1, 1)
uint32_t mldsa65_private_key_from_der(const uint8_t *private_key_der, size_t private_key_der_len,
                                      uint8_t *private_key, size_t private_key_len);

/** Reads the seed of a private key's file of any length. It rejects an expanded key that the seed beside it does not generate,
 * and does not look at one that stands alone.
 * Needs MLDSA65_STACK_DER bytes of stack.
 * @return MLDSA_DONE, MLDSA_WRONG_LENGTH, MLDSA_NO_SEED, MLDSA_DER_CUT_SHORT, MLDSA_DER_TRAILING, MLDSA_DER_DAMAGED,
 * MLDSA_DER_VERSION, MLDSA_DER_ALGORITHM, MLDSA_DER_KEY_LENGTH, MLDSA_OTHER_SET, MLDSA_INCONSISTENT, MLDSA_SAMPLING_LIMIT */
MLDSA_ANSWERS MLDSA_ARRAYS(1, 1)
uint32_t mldsa65_seed_from_der(const uint8_t *seed_der, size_t seed_der_len, uint8_t *seed, size_t seed_len);

/** Reads a public key of a text in PEM (RFC 7468) of any length. Text may stand before its first line and behind its last one, and
 * white space anywhere between them; a second text behind it is rejected. What it spells is read as public_key_from_der reads it.
 * Needs MLDSA65_STACK_PEM bytes of stack.
 * @return MLDSA_DONE, MLDSA_WRONG_LENGTH, MLDSA_PEM_MISSING, MLDSA_PEM_ENCRYPTED, MLDSA_PEM_CERTIFICATE, MLDSA_PEM_OTHER_KIND,
 * MLDSA_PEM_OTHER_LABEL, MLDSA_PEM_CUT_SHORT, MLDSA_PEM_TRAILING, MLDSA_PEM_DAMAGED, MLDSA_DER_CUT_SHORT, MLDSA_DER_TRAILING,
 * MLDSA_DER_DAMAGED, MLDSA_DER_ALGORITHM, MLDSA_DER_KEY_LENGTH, MLDSA_OTHER_SET */
MLDSA_ANSWERS MLDSA_ARRAYS(1, 1)
uint32_t mldsa65_public_key_from_pem(const uint8_t *public_key_pem, size_t public_key_pem_len,
                                     uint8_t *public_key, size_t public_key_len);

/** Reads the expanded private key of such a text, as private_key_from_der reads it. One that is encrypted has to be decrypted
 * first.
 * Needs MLDSA65_STACK_PEM bytes of stack.
 * @return MLDSA_DONE, MLDSA_WRONG_LENGTH, MLDSA_PEM_MISSING, MLDSA_PEM_ENCRYPTED, MLDSA_PEM_CERTIFICATE, MLDSA_PEM_OTHER_KIND,
 * MLDSA_PEM_OTHER_LABEL, MLDSA_PEM_CUT_SHORT, MLDSA_PEM_TRAILING, MLDSA_PEM_DAMAGED, MLDSA_DER_CUT_SHORT, MLDSA_DER_TRAILING,
 * MLDSA_DER_DAMAGED, MLDSA_DER_VERSION, MLDSA_DER_ALGORITHM, MLDSA_DER_KEY_LENGTH, MLDSA_OTHER_SET, MLDSA_INCONSISTENT,
 * MLDSA_SAMPLING_LIMIT */
MLDSA_ANSWERS MLDSA_ARRAYS(1, 1)
uint32_t mldsa65_private_key_from_pem(const uint8_t *private_key_pem, size_t private_key_pem_len,
                                      uint8_t *private_key, size_t private_key_len);

/** Reads the seed of a private key's text, as seed_from_der reads it.
 * Needs MLDSA65_STACK_PEM bytes of stack.
 * @return MLDSA_DONE, MLDSA_WRONG_LENGTH, MLDSA_NO_SEED, MLDSA_PEM_MISSING, MLDSA_PEM_ENCRYPTED, MLDSA_PEM_CERTIFICATE,
 * MLDSA_PEM_OTHER_KIND, MLDSA_PEM_OTHER_LABEL, MLDSA_PEM_CUT_SHORT, MLDSA_PEM_TRAILING, MLDSA_PEM_DAMAGED, MLDSA_DER_CUT_SHORT,
 * MLDSA_DER_TRAILING, MLDSA_DER_DAMAGED, MLDSA_DER_VERSION, MLDSA_DER_ALGORITHM, MLDSA_DER_KEY_LENGTH, MLDSA_OTHER_SET,
 * MLDSA_INCONSISTENT, MLDSA_SAMPLING_LIMIT */
MLDSA_ANSWERS MLDSA_ARRAYS(1, 1)
uint32_t mldsa65_seed_from_pem(const uint8_t *seed_pem, size_t seed_pem_len, uint8_t *seed, size_t seed_len);

/** Writes a public key as files have it: the DER of a SubjectPublicKeyInfo (RFC 9881, section 4), of MLDSA87_PUBLIC_KEY_DER_LEN
 * bytes.
 * Needs MLDSA87_STACK_DER bytes of stack.
 * @return MLDSA_DONE or MLDSA_WRONG_LENGTH */
MLDSA_ANSWERS MLDSA_ARRAYS(1, 1)
uint32_t mldsa87_public_key_to_der(const uint8_t *public_key, size_t public_key_len,
                                   uint8_t *public_key_der, size_t public_key_der_len);

/** Reads a public key of a file of any length. DER has one form; every other file is reported by its first fault.
 * Needs MLDSA87_STACK_DER bytes of stack.
 * @return MLDSA_DONE, MLDSA_WRONG_LENGTH, MLDSA_DER_CUT_SHORT, MLDSA_DER_TRAILING, MLDSA_DER_DAMAGED, MLDSA_DER_ALGORITHM,
 * MLDSA_DER_KEY_LENGTH, MLDSA_OTHER_SET */
MLDSA_ANSWERS MLDSA_ARRAYS(1, 1)
uint32_t mldsa87_public_key_from_der(const uint8_t *public_key_der, size_t public_key_der_len,
                                     uint8_t *public_key, size_t public_key_len);

/** Writes a private key as files have it, not encrypted: the DER of a OneAsymmetricKey of version 0 (RFC 9881, section 6; also
 * called PKCS #8) with the seed, of MLDSA_SEED_DER_LEN bytes.
 * Needs MLDSA87_STACK_DER bytes of stack.
 * @return MLDSA_DONE or MLDSA_WRONG_LENGTH */
MLDSA_ANSWERS MLDSA_ARRAYS(1, 1)
uint32_t mldsa87_seed_to_der(const uint8_t *seed, size_t seed_len, uint8_t *seed_der, size_t seed_der_len);

/** Writes such a file with the expanded key, of MLDSA87_PRIVATE_KEY_DER_LEN bytes. The key has to be one to which is_pair says
 * yes.
 * Needs MLDSA87_STACK_DER bytes of stack.
 * @return MLDSA_DONE, MLDSA_WRONG_LENGTH, MLDSA_INCONSISTENT, MLDSA_SAMPLING_LIMIT */
MLDSA_ANSWERS MLDSA_ARRAYS(1, 1)
uint32_t mldsa87_private_key_to_der(const uint8_t *private_key, size_t private_key_len,
                                    uint8_t *private_key_der, size_t private_key_der_len);

/** Writes such a file with the seed and the expanded key that it generates, of MLDSA87_BOTH_DER_LEN bytes.
 * Needs MLDSA87_STACK_DER bytes of stack.
 * @return MLDSA_DONE, MLDSA_WRONG_LENGTH, MLDSA_SAMPLING_LIMIT */
MLDSA_ANSWERS MLDSA_ARRAYS(1, 1)
uint32_t mldsa87_both_to_der(const uint8_t *seed, size_t seed_len, uint8_t *both_der, size_t both_der_len);

/** Reads the expanded private key of a file of any length, in any of the three forms. It rejects an expanded key that the seed
 * beside it does not generate, and one that stands alone and to which is_pair does not say yes. To load a key, ask
 * seed_from_der first, and this if the result is MLDSA_NO_SEED. If you don't know the set, ask at each as long as the result
 * is MLDSA_OTHER_SET.
 * Needs MLDSA87_STACK_DER bytes of stack.
 * @return MLDSA_DONE, MLDSA_WRONG_LENGTH, MLDSA_DER_CUT_SHORT, MLDSA_DER_TRAILING, MLDSA_DER_DAMAGED, MLDSA_DER_VERSION,
 * MLDSA_DER_ALGORITHM, MLDSA_DER_KEY_LENGTH, MLDSA_OTHER_SET, MLDSA_INCONSISTENT, MLDSA_SAMPLING_LIMIT */
MLDSA_ANSWERS MLDSA_ARRAYS(1, 1)
uint32_t mldsa87_private_key_from_der(const uint8_t *private_key_der, size_t private_key_der_len,
                                      uint8_t *private_key, size_t private_key_len);

/** Reads the seed of a private key's file of any length. It rejects an expanded key that the seed beside it does not generate,
 * and does not look at one that stands alone.
 * Needs MLDSA87_STACK_DER bytes of stack.
 * @return MLDSA_DONE, MLDSA_WRONG_LENGTH, MLDSA_NO_SEED, MLDSA_DER_CUT_SHORT, MLDSA_DER_TRAILING, MLDSA_DER_DAMAGED,
 * MLDSA_DER_VERSION, MLDSA_DER_ALGORITHM, MLDSA_DER_KEY_LENGTH, MLDSA_OTHER_SET, MLDSA_INCONSISTENT, MLDSA_SAMPLING_LIMIT */
MLDSA_ANSWERS MLDSA_ARRAYS(1, 1)
uint32_t mldsa87_seed_from_der(const uint8_t *seed_der, size_t seed_der_len, uint8_t *seed, size_t seed_len);

/** Reads a public key of a text in PEM (RFC 7468) of any length. Text may stand before its first line and behind its last one, and
 * white space anywhere between them; a second text behind it is rejected. What it spells is read as public_key_from_der reads it.
 * Needs MLDSA87_STACK_PEM bytes of stack.
 * @return MLDSA_DONE, MLDSA_WRONG_LENGTH, MLDSA_PEM_MISSING, MLDSA_PEM_ENCRYPTED, MLDSA_PEM_CERTIFICATE, MLDSA_PEM_OTHER_KIND,
 * MLDSA_PEM_OTHER_LABEL, MLDSA_PEM_CUT_SHORT, MLDSA_PEM_TRAILING, MLDSA_PEM_DAMAGED, MLDSA_DER_CUT_SHORT, MLDSA_DER_TRAILING,
 * MLDSA_DER_DAMAGED, MLDSA_DER_ALGORITHM, MLDSA_DER_KEY_LENGTH, MLDSA_OTHER_SET */
MLDSA_ANSWERS MLDSA_ARRAYS(1, 1)
uint32_t mldsa87_public_key_from_pem(const uint8_t *public_key_pem, size_t public_key_pem_len,
                                     uint8_t *public_key, size_t public_key_len);

/** Reads the expanded private key of such a text, as private_key_from_der reads it. One that is encrypted has to be decrypted
 * first.
 * Needs MLDSA87_STACK_PEM bytes of stack.
 * @return MLDSA_DONE, MLDSA_WRONG_LENGTH, MLDSA_PEM_MISSING, MLDSA_PEM_ENCRYPTED, MLDSA_PEM_CERTIFICATE, MLDSA_PEM_OTHER_KIND,
 * MLDSA_PEM_OTHER_LABEL, MLDSA_PEM_CUT_SHORT, MLDSA_PEM_TRAILING, MLDSA_PEM_DAMAGED, MLDSA_DER_CUT_SHORT, MLDSA_DER_TRAILING,
 * MLDSA_DER_DAMAGED, MLDSA_DER_VERSION, MLDSA_DER_ALGORITHM, MLDSA_DER_KEY_LENGTH, MLDSA_OTHER_SET, MLDSA_INCONSISTENT,
 * MLDSA_SAMPLING_LIMIT */
MLDSA_ANSWERS MLDSA_ARRAYS(1, 1)
uint32_t mldsa87_private_key_from_pem(const uint8_t *private_key_pem, size_t private_key_pem_len,
                                      uint8_t *private_key, size_t private_key_len);

/** Reads the seed of a private key's text, as seed_from_der reads it.
 * Needs MLDSA87_STACK_PEM bytes of stack.
 * @return MLDSA_DONE, MLDSA_WRONG_LENGTH, MLDSA_NO_SEED, MLDSA_PEM_MISSING, MLDSA_PEM_ENCRYPTED, MLDSA_PEM_CERTIFICATE,
 * MLDSA_PEM_OTHER_KIND, MLDSA_PEM_OTHER_LABEL, MLDSA_PEM_CUT_SHORT, MLDSA_PEM_TRAILING, MLDSA_PEM_DAMAGED, MLDSA_DER_CUT_SHORT,
 * MLDSA_DER_TRAILING, MLDSA_DER_DAMAGED, MLDSA_DER_VERSION, MLDSA_DER_ALGORITHM, MLDSA_DER_KEY_LENGTH, MLDSA_OTHER_SET,
 * MLDSA_INCONSISTENT, MLDSA_SAMPLING_LIMIT */
MLDSA_ANSWERS MLDSA_ARRAYS(1, 1)
uint32_t mldsa87_seed_from_pem(const uint8_t *seed_pem, size_t seed_pem_len, uint8_t *seed, size_t seed_len);

/* The same for every set. */

#define MLDSA_STACK_MU 3328

/** Adds a piece to the message of a state that mu_begin or mu_begin_private wrote. A state is no secret beyond its message, and
 * you may copy it. Any bytes are safe in it: if its last byte is 0, as in the zeros that a forgotten mu_begin leaves, or above 136,
 * which no call writes, the result is MLDSA_BROKEN_STATE; any other array gives mu of something.
 * Needs MLDSA_STACK_MU bytes of stack.
 * @return MLDSA_DONE, MLDSA_WRONG_LENGTH, MLDSA_BROKEN_STATE */
MLDSA_ANSWERS MLDSA_ARRAYS(1, 0) MLDSA_ARRAY(read_write, 3, 4)
uint32_t mldsa_mu_update(const uint8_t *piece, size_t piece_len, uint8_t *state, size_t state_len);

/** Writes mu of the message of a state, of MLDSA_MU_LEN bytes. The state stays as it is, so that you can add more.
 * Needs MLDSA_STACK_MU bytes of stack.
 * @return MLDSA_DONE, MLDSA_WRONG_LENGTH, MLDSA_BROKEN_STATE */
MLDSA_ANSWERS MLDSA_ARRAYS(1, 1)
uint32_t mldsa_mu_finish(const uint8_t *state, size_t state_len, uint8_t *mu, size_t mu_len);

/** The version of the library: 65536 * major + 256 * minor + patch. */
MLDSA_ANSWERS
uint32_t mldsa_version(void);

/** Tells whether hash_sign can sign a digest with the object identifier of its hash function. It takes next to no time, so ask
 * before you draw random bytes.
 * Needs MLDSA_STACK_MU bytes of stack.
 * @return MLDSA_DONE, MLDSA_OID_EMPTY, MLDSA_OID_NOT_DER, MLDSA_DIGEST_TOO_LONG, MLDSA_DIGEST_LENGTH */
MLDSA_ANSWERS MLDSA_ARRAYS(2, 0)
uint32_t mldsa_check_pre_hash(const uint8_t *digest, size_t digest_len, const uint8_t *oid, size_t oid_len);

#define MLDSA_TEXT_LEN 64

/** Writes the text that mldsa_text has of a result into an array of MLDSA_TEXT_LEN bytes, with zeros behind it, for languages that
 * load the library and read no header.
 * Needs MLDSA_STACK_MU bytes of stack.
 * @return MLDSA_DONE or MLDSA_WRONG_LENGTH */
MLDSA_ANSWERS MLDSA_ARRAY(write_only, 2, 3)
uint32_t mldsa_text_of(uint32_t status, uint8_t *text, size_t text_len);

/* For languages that read no header: the lengths and the name of a set by its number, 44, 65 or 87. */
#define MLDSA_LENGTHS_LEN 52
#define MLDSA_NAME_LEN 16

/** What mldsa_lengths writes, in this order: MLDSA65_PUBLIC_KEY_LEN, and the others likewise. */
enum mldsa_length {
    MLDSA_LENGTH_PUBLIC_KEY,
    MLDSA_LENGTH_PRIVATE_KEY,
    MLDSA_LENGTH_SIGNATURE,
    MLDSA_LENGTH_SEED,
    MLDSA_LENGTH_RANDOM,
    MLDSA_LENGTH_MU,
    MLDSA_LENGTH_STATE,
    MLDSA_LENGTH_PREPARED_PUBLIC_KEY,
    MLDSA_LENGTH_PREPARED_PRIVATE_KEY,
    MLDSA_LENGTH_PUBLIC_KEY_DER,
    MLDSA_LENGTH_SEED_DER,
    MLDSA_LENGTH_PRIVATE_KEY_DER,
    MLDSA_LENGTH_BOTH_DER
};

/** Writes the lengths of a set, each in 4 bytes, the lowest first. The result is MLDSA_NO if no set has the number.
 * Needs MLDSA_STACK_MU bytes of stack.
 * @return MLDSA_DONE, MLDSA_WRONG_LENGTH, MLDSA_NO */
MLDSA_ANSWERS MLDSA_ARRAY(write_only, 2, 3)
uint32_t mldsa_lengths(uint32_t set, uint8_t *lengths, size_t lengths_len);

/** Writes the name of a set, such as ML-DSA-65, with zeros behind it. The result is MLDSA_NO if no set has the number.
 * Needs MLDSA_STACK_MU bytes of stack.
 * @return MLDSA_DONE, MLDSA_WRONG_LENGTH, MLDSA_NO */
MLDSA_ANSWERS MLDSA_ARRAY(write_only, 2, 3)
uint32_t mldsa_name(uint32_t set, uint8_t *name, size_t name_len);

/** The text of a result, or of another number. */
MLDSA_INLINE const char *mldsa_text(uint32_t status)
{
    switch (status) {
    case MLDSA_DONE: return "no error, or the result yes";
    case MLDSA_NO: return "no";
    case MLDSA_WRONG_LENGTH: return "an array has the wrong length";
    case MLDSA_CONTEXT_TOO_LONG: return "ML-DSA.Sign: ctx too long";
    case MLDSA_HASH_CONTEXT_TOO_LONG: return "HashML-DSA.Sign: ctx too long";
    case MLDSA_OID_EMPTY: return "HashML-DSA.Sign: OID is empty";
    case MLDSA_OID_NOT_DER: return "HashML-DSA.Sign: OID is not DER encoded";
    case MLDSA_DIGEST_TOO_LONG: return "Hash of message is too long, should not be more than 1KiB";
    case MLDSA_DIGEST_LENGTH: return "HashML-DSA.Sign: digest length does not match the OID";
    case MLDSA_TOO_MANY_ATTEMPTS: return "ML-DSA.Sign: too many attempts";
    case MLDSA_KEY_RANGE: return "the private key is damaged: s1 or s2 is out of range";
    case MLDSA_SAMPLING_LIMIT: return "sampling limit reached";
    case MLDSA_BROKEN_STATE: return "the state of a message in pieces is broken";
    case MLDSA_NOT_PREPARED: return "no call has written this prepared key";
    case MLDSA_DER_CUT_SHORT: return "its DER is cut short";
    case MLDSA_DER_TRAILING: return "more follows behind the end of its DER";
    case MLDSA_DER_DAMAGED: return "its DER is damaged";
    case MLDSA_DER_VERSION: return "it has a private key of another version";
    case MLDSA_DER_ALGORITHM: return "its key is not one of ML-DSA-44, ML-DSA-65 or ML-DSA-87";
    case MLDSA_DER_KEY_LENGTH: return "its key has a wrong length";
    case MLDSA_OTHER_SET: return "its key is one of another parameter set";
    case MLDSA_INCONSISTENT: return "the private key is not consistent";
    case MLDSA_NO_SEED: return "it has no seed: an expanded key does not reveal its seed";
    case MLDSA_PEM_MISSING: return "it is not in PEM: no line -----BEGIN comes first";
    case MLDSA_PEM_ENCRYPTED: return "it is encrypted: decrypt it first";
    case MLDSA_PEM_CERTIFICATE: return "it has a certificate: take the key out of it";
    case MLDSA_PEM_OTHER_KIND: return "it has a key of another kind";
    case MLDSA_PEM_OTHER_LABEL: return "it has a key of another kind, or something else than a key";
    case MLDSA_PEM_CUT_SHORT: return "it is cut short";
    case MLDSA_PEM_TRAILING: return "more follows behind its end";
    case MLDSA_PEM_DAMAGED: return "its text is damaged";
    default: return "no result of this library";
    }
}

#ifdef __cplusplus
}
#endif
#endif
