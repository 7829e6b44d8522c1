/* What strangers give, for libFuzzer: keys in DER and in PEM, keys and signatures of any length, prepared keys, and states of a message in
 * pieces. What a call gives is held by a second road to it; c/fuzz/run compiles one program with each of the functions below as
 * its TARGET. Each array has a block of its own, so that the sanitizer sees every byte that is touched beside it. */
#include "../tests/pem.h"

enum { Q = 8380417, HELD = 96 };

static void *blocks[HELD];
static int held;
/* A sum over all statuses and outputs of an input, by which libraries are compared. */
static uint64_t sum;

#define HOLDS(what) ((what) ? (void)0 : broken(#what, __LINE__))
#define JUDGED(status) ((status) == MLDSA_YES || (status) == MLDSA_NO)

static void broken(const char *what, int line)
{
    fprintf(stderr, "c/fuzz/strangers.c:%d: this does not hold: %s\n", line, what);
    abort();
}

/* An array of so many bytes A5, which is given back behind the input. */
static uint8_t *array(size_t length)
{
    uint8_t *made = malloc(length ? length : 1);
    HOLDS(made && held < HELD);
    blocks[held++] = made;
    /* (a block of one byte for none has none: nothing of it is to be touched) */
    memset(made, 0xA5, length);
    return length ? made : made + 1;
}

static uint8_t *copy(const uint8_t *from, size_t length)
{
    uint8_t *made = array(length);
    if (length)
        memcpy(made, from, length);
    return made;
}

static int is_untouched(const uint8_t *at, size_t length)
{
    for (size_t i = 0; i < length; i++)
        if (at[i] != 0xA5)
            return 0;
    return 1;
}

static void note(const void *at, size_t length)
{
    for (const uint8_t *byte = at; length--; byte++)
        sum = (sum ^ *byte) * 0x100000001B3;
}

/* A status, and what its call wrote: something where it is done, and else nothing. */
static uint32_t wrote(uint32_t status, const uint8_t *at, size_t length)
{
    note(&status, sizeof status);
    if (status == MLDSA_DONE)
        note(at, length);
    else
        HOLDS(is_untouched(at, length));
    return status;
}

static uint32_t said(uint32_t status)
{
    return wrote(status, NULL, 0);
}

/* An input is read from its front. */
struct input {
    const uint8_t *at;
    size_t left;
};

static size_t number(struct input *in, int bytes)
{
    size_t found = 0;
    for (; bytes && in->left; bytes--, in->left--)
        found = found << 8 | *in->at++;
    return found;
}

struct bytes {
    uint8_t *at;
    size_t length;
};

static struct bytes taken(struct input *in, size_t length)
{
    struct bytes found = {NULL, length < in->left ? length : in->left};
    found.at = copy(in->at, found.length);
    in->at += found.length, in->left -= found.length;
    return found;
}

static const struct set *chosen(struct input *in)
{
    return &SETS[number(in, 1) % 3];
}

/* What a call reads of the text of a file is what the call for DER reads of the file, up to the longest one. */
static void of_text(uint32_t (*call)(in, size_t, uint8_t *, size_t), const char *label, struct bytes file, size_t longest,
                    uint32_t status, const uint8_t *key, size_t length)
{
    uint8_t *text = array(file.length / 3 * 4 + file.length / 48 + 80), *read = array(length);
    size_t text_length = pem_of(label, file.at, file.length, text);
    uint32_t of_pem = wrote(call(copy(text, text_length), text_length, read, length), read, length);
    HOLDS(of_pem == (file.length <= longest ? status : MLDSA_DER_KEY_LENGTH) && (of_pem != MLDSA_DONE || !memcmp(read, key, length)));
}

/* Any text, with white space and text around a key: each call has the same fault of it, or a status of DER. */
static void text(struct bytes given)
{
    uint32_t first = 0;
    for (const struct set *s = SETS; s < SETS + 3; s++) {
        uint8_t *seed = array(32), *expanded = array(s->private_key_len);
        uint32_t of_seed = wrote(s->seed_from_pem(given.at, given.length, seed, 32), seed, 32);
        uint32_t of_key = wrote(s->private_key_from_pem(given.at, given.length, expanded, s->private_key_len), expanded, s->private_key_len);
        HOLDS(of_seed <= MLDSA_PEM_DAMAGED && (of_seed == MLDSA_DONE || of_seed >= MLDSA_DER_CUT_SHORT));
        HOLDS(of_seed < MLDSA_PEM_MISSING || (of_key == of_seed && (s == SETS || first == of_seed)));
        first = of_seed;
    }
}

/* A key in DER has one form and one set, so what is read is what is written again; and a seed and a key agree. */
static void der(struct input in)
{
    int readers = 0, refusals = 0;
    struct bytes file = taken(&in, in.left);
    text(file);
    for (const struct set *s = SETS; s < SETS + 3; s++) {
        size_t pk = s->public_key_len, sk = s->private_key_len;
        uint8_t *key = array(pk), *seed = array(32), *expanded = array(sk), *again = array(file.length);
        uint32_t of_public = wrote(s->public_key_from_der(file.at, file.length, key, pk), key, pk);
        if (of_public == MLDSA_DONE) {
            readers++;
            HOLDS(s->public_key_to_der(key, pk, again, file.length) == MLDSA_DONE && !memcmp(again, file.at, file.length));
        }
        of_text(s->public_key_from_pem, "PUBLIC KEY", file, MLDSA87_PUBLIC_KEY_DER_LEN, of_public, key, pk);
        uint32_t of_seed = wrote(s->seed_from_der(file.at, file.length, seed, 32), seed, 32);
        uint32_t of_key = wrote(s->private_key_from_der(file.at, file.length, expanded, sk), expanded, sk);
        of_text(s->seed_from_pem, "PRIVATE KEY", file, LONGEST_DER, of_seed, seed, 32);
        of_text(s->private_key_from_pem, "PRIVATE KEY", file, LONGEST_DER, of_key, expanded, sk);
        refusals += of_seed == MLDSA_OTHER_SET;
        if (of_seed == MLDSA_DONE) {
            uint8_t *public_key = array(pk), *generated = array(sk);
            readers++;
            HOLDS(of_key == MLDSA_DONE);
            HOLDS(s->keygen(seed, 32, public_key, pk, generated, sk) == MLDSA_DONE && !memcmp(generated, expanded, sk));
            HOLDS((file.length == MLDSA_SEED_DER_LEN ? s->seed_to_der : s->both_to_der)(seed, 32, again, file.length) == MLDSA_DONE);
            HOLDS(!memcmp(again, file.at, file.length));
        } else if (of_seed != MLDSA_NO_SEED) {
            HOLDS(of_key == of_seed && of_seed >= MLDSA_DER_CUT_SHORT && of_seed <= MLDSA_INCONSISTENT);
        } else if (of_key == MLDSA_DONE) {
            readers++;
            HOLDS(s->is_pair(expanded, sk) == MLDSA_YES);
            HOLDS(s->private_key_to_der(expanded, sk, again, file.length) == MLDSA_DONE && !memcmp(again, file.at, file.length));
        } else {
            HOLDS(of_key == MLDSA_INCONSISTENT);
        }
    }
    HOLDS(readers == 0 || readers == 1);
    HOLDS(refusals != 3);
}

/* The hash mu of a message, by one piece or two. */
static uint32_t mu_of(uint32_t (*begin)(in, size_t, in, size_t, uint8_t *, size_t), const uint8_t *key, size_t key_len,
                      struct bytes context, struct bytes message, size_t cut, uint8_t *mu)
{
    uint8_t *state = array(MLDSA_STATE_LEN);
    uint32_t begun = wrote(begin(key, key_len, context.at, context.length, state, MLDSA_STATE_LEN), state, MLDSA_STATE_LEN);
    cut = message.length ? cut % (message.length + 1) : 0;
    if (begun != MLDSA_DONE)
        return begun;
    HOLDS(mldsa_mu_update(message.at, cut, state, MLDSA_STATE_LEN) == MLDSA_DONE);
    HOLDS(mldsa_mu_update(message.at + cut, message.length - cut, state, MLDSA_STATE_LEN) == MLDSA_DONE);
    return wrote(mldsa_mu_finish(state, MLDSA_STATE_LEN, mu, 64), mu, 64);
}

/* A public key and a signature of any length: what a prepared key and mu give. */
static void public_key(const struct set *s, struct input *in)
{
    size_t key_len = number(in, 2), signature_len = number(in, 2), context_len = number(in, 2), cut = number(in, 2);
    struct bytes key = taken(in, key_len), signature = taken(in, signature_len), context = taken(in, context_len);
    struct bytes message = taken(in, in->left);
    int fits = key.length == s->public_key_len && signature.length == s->signature_len;
    uint32_t verdict = said(s->verify(key.at, key.length, message.at, message.length, context.at, context.length, signature.at, signature.length));
    HOLDS(fits ? JUDGED(verdict) : verdict == MLDSA_WRONG_LENGTH);
    HOLDS(s->accepts(key.at, key.length, message.at, message.length, context.at, context.length, signature.at, signature.length) == (verdict == MLDSA_YES));
    uint8_t *mu = array(64), *prepared = array(s->prepared_public_key_len);
    uint32_t hashed = mu_of(s->mu_begin, key.at, key.length, context, message, cut, mu);
    HOLDS(hashed == (key.length != s->public_key_len ? MLDSA_WRONG_LENGTH : context.length > 255 ? MLDSA_CONTEXT_TOO_LONG : MLDSA_DONE));
    if (hashed == MLDSA_DONE)
        HOLDS(said(s->verify_mu(key.at, key.length, mu, 64, signature.at, signature.length)) == verdict);
    else if (fits)
        HOLDS(verdict == MLDSA_NO);
    uint32_t digest = said(s->hash_verify(key.at, key.length, message.at, message.length, context.at, context.length, SHA256_OID, 11, signature.at, signature.length));
    HOLDS(fits ? JUDGED(digest) : digest == MLDSA_WRONG_LENGTH);
    size_t length = s->prepared_public_key_len;
    uint32_t made = wrote(s->prepare_public_key(key.at, key.length, prepared, length), prepared, length);
    HOLDS(made == (key.length == s->public_key_len ? MLDSA_DONE : MLDSA_WRONG_LENGTH));
    if (made == MLDSA_DONE) {
        HOLDS(s->verify_prepared(prepared, length, message.at, message.length, context.at, context.length, signature.at, signature.length) == verdict);
        HOLDS(s->hash_verify_prepared(prepared, length, message.at, message.length, context.at, context.length, SHA256_OID, 11, signature.at, signature.length) == digest);
    }
}

/* A private key of any length: what a prepared one and mu sign, whether that is accepted, and what is read of its DER. */
static void private_key(const struct set *s, struct input *in, int signs_always)
{
    size_t key_len = number(in, 2), context_len = number(in, 2), cut = number(in, 2), sig = s->signature_len;
    struct bytes key = taken(in, key_len), random_bytes = taken(in, 32), context = taken(in, context_len);
    struct bytes message = taken(in, in->left);
    int fits = key.length == s->private_key_len;
    uint8_t *public_key = array(s->public_key_len), *mu = array(64), *signature = array(sig), *by_mu = array(sig), *by_prepared = array(sig);
    uint32_t range = said(s->check_private_key(key.at, key.length));
    HOLDS(fits ? range == MLDSA_DONE || range == MLDSA_KEY_RANGE : range == MLDSA_WRONG_LENGTH);
    uint32_t whole = said(s->is_whole(key.at, key.length)), pair = said(s->is_pair(key.at, key.length));
    HOLDS(range == MLDSA_DONE ? JUDGED(whole) && JUDGED(pair) && pair >= whole : whole == range && pair == range);
    HOLDS(wrote(s->public_key(key.at, key.length, public_key, s->public_key_len), public_key, s->public_key_len) == range);
    uint8_t *file = array(s->private_key_der_len), *read = array(fits ? key.length : 0);
    uint32_t filed = wrote(s->private_key_to_der(key.at, key.length, file, s->private_key_der_len), file, s->private_key_der_len);
    HOLDS(filed == (!fits ? MLDSA_WRONG_LENGTH : range || pair ? MLDSA_INCONSISTENT : MLDSA_DONE));
    if (filed == MLDSA_DONE)
        HOLDS(s->private_key_from_der(file, s->private_key_der_len, read, key.length) == MLDSA_DONE && !memcmp(read, key.at, key.length));
    uint32_t hashed = mu_of(s->mu_begin_private, key.at, key.length, context, message, cut, mu);
    HOLDS(hashed == (!fits ? MLDSA_WRONG_LENGTH : context.length > 255 ? MLDSA_CONTEXT_TOO_LONG : MLDSA_DONE));
    /* (all attempts with a key that is not consistent take long) */
    if (fits && pair != MLDSA_YES && !signs_always)
        return;
    uint32_t signed_ = wrote(s->sign(key.at, key.length, message.at, message.length, context.at, context.length, random_bytes.at, random_bytes.length, signature, sig), signature, sig);
    if (!fits || random_bytes.length != 32) {
        HOLDS(signed_ == MLDSA_WRONG_LENGTH);
        return;
    }
    HOLDS(signed_ == MLDSA_DONE || signed_ == MLDSA_KEY_RANGE || signed_ == MLDSA_CONTEXT_TOO_LONG || signed_ == MLDSA_TOO_MANY_ATTEMPTS);
    HOLDS((signed_ == MLDSA_CONTEXT_TOO_LONG) == (context.length > 255 && range == MLDSA_DONE) || range == MLDSA_KEY_RANGE);
    if (hashed == MLDSA_DONE)
        HOLDS(wrote(s->sign_mu(key.at, key.length, mu, 64, random_bytes.at, 32, by_mu, sig), by_mu, sig) == signed_ && !memcmp(by_mu, signature, sig));
    if (signed_ == MLDSA_DONE && pair == MLDSA_YES)
        HOLDS(s->verify(public_key, s->public_key_len, message.at, message.length, context.at, context.length, signature, sig) == MLDSA_YES);
    size_t length = s->prepared_private_key_len;
    uint8_t *prepared = array(length);
    HOLDS(wrote(s->prepare_private_key(key.at, key.length, prepared, length), prepared, length) == range);
    if (range == MLDSA_DONE)
        HOLDS(s->sign_prepared(prepared, length, message.at, message.length, context.at, context.length, random_bytes.at, 32, by_prepared, sig) == signed_ && !memcmp(by_prepared, signature, sig));
}

static void keys(struct input in)
{
    const struct set *s = chosen(&in);
    size_t kind = number(&in, 1) % 3;
    if (kind == 0)
        public_key(s, &in);
    else
        private_key(s, &in, kind == 2);
}

/* A prepared key in which some bytes are changed, or any bytes: each value of its matrix is a word, the last ones of the key. */
static void prepared(struct input in)
{
    const struct set *s = chosen(&in);
    int is_private = number(&in, 1) & 1;
    size_t edits = number(&in, 1) % 8, pk = s->public_key_len, sk = s->private_key_len, sig = s->signature_len;
    size_t length = is_private ? s->prepared_private_key_len : s->prepared_public_key_len;
    size_t front = is_private ? sk : pk + 64;
    struct input of_edits = {in.at, in.left};
    for (size_t i = 0; i < 4 * edits && in.left; i++)
        number(&in, 1);
    uint8_t *seed = array(32), *public_key = array(pk), *private_key = array(sk), *key = array(length), *signature = array(sig), *other = array(sig), *mu = array(64);
    struct bytes given = taken(&in, 32), message = taken(&in, in.left), context = {array(0), 0};
    if (given.length)
        memcpy(seed, given.at, given.length);
    HOLDS(s->keygen(seed, 32, public_key, pk, private_key, sk) == MLDSA_DONE);
    HOLDS((is_private ? s->prepare_private_key(private_key, sk, key, length) : s->prepare_public_key(public_key, pk, key, length)) == MLDSA_DONE);
    HOLDS(s->sign(private_key, sk, message.at, message.length, context.at, 0, seed, 32, signature, sig) == MLDSA_DONE);
    uint8_t *was = copy(key, length);
    for (; edits; edits--) {
        size_t at = number(&of_edits, 3);
        key[at % length] ^= (uint8_t)number(&of_edits, 1);
    }
    int is_same = !memcmp(was, key, length), is_prepared = !is_private || s->check_private_key(key, sk) == MLDSA_DONE;
    for (size_t at = front; at < length; at += 4)
        is_prepared &= ((uint32_t)key[at] | (uint32_t)key[at + 1] << 8 | (uint32_t)key[at + 2] << 16 | (uint32_t)key[at + 3] << 24) < Q;
    HOLDS((length - front) % 4 == 0);
    HOLDS(mu_of(s->mu_begin, public_key, pk, context, message, 0, mu) == MLDSA_DONE);
    if (is_private) {
        uint32_t signed_ = wrote(s->sign_prepared(key, length, message.at, message.length, context.at, 0, seed, 32, other, sig), other, sig);
        HOLDS(is_prepared ? signed_ == MLDSA_DONE || signed_ == MLDSA_TOO_MANY_ATTEMPTS : signed_ == MLDSA_NOT_PREPARED);
        HOLDS(!is_same || (signed_ == MLDSA_DONE && !memcmp(other, signature, sig)));
        uint8_t *third = array(sig);
        if (!memcmp(key + 64, was + 64, 64))
            HOLDS(s->sign_mu_prepared(key, length, mu, 64, seed, 32, third, sig) == signed_ && !memcmp(third, other, sig));
    } else {
        uint32_t verdict = said(s->verify_prepared(key, length, message.at, message.length, context.at, 0, signature, sig));
        HOLDS(is_prepared ? JUDGED(verdict) : verdict == MLDSA_NOT_PREPARED);
        HOLDS(!is_same || verdict == MLDSA_YES);
        if (!memcmp(key + pk, was + pk, 64))
            HOLDS(s->verify_mu_prepared(key, length, mu, 64, signature, sig) == verdict);
    }
}

/* A message in pieces that are cut anywhere; and a state of any bytes. */
static void pieces(struct input in)
{
    static uint8_t publics[3][LONGEST_KEY], privates[3][LONGEST_KEY];
    const struct set *s = chosen(&in);
    uint8_t *public_key = publics[s - SETS], *private_key = privates[s - SETS], seed[32] = {0};
    size_t pk = s->public_key_len, sk = s->private_key_len, cuts[4], context_len = number(&in, 1), is_any = number(&in, 1) & 1;
    for (int i = 0; i < 4; i++)
        cuts[i] = number(&in, 2);
    if (!public_key[0] && !private_key[0])
        HOLDS(s->keygen(seed, 32, public_key, pk, private_key, sk) == MLDSA_DONE);
    struct bytes context = taken(&in, context_len), any = taken(&in, is_any ? MLDSA_STATE_LEN : 0), message = taken(&in, in.left);
    uint8_t *state = array(MLDSA_STATE_LEN), *at_once = array(64), *mu = array(64), *of_private = array(64);
    if (is_any) {
        memcpy(state, any.at, any.length);
    } else {
        HOLDS(mu_of(s->mu_begin, public_key, pk, context, message, 0, at_once) == MLDSA_DONE);
        HOLDS(mu_of(s->mu_begin_private, private_key, sk, context, message, cuts[0], of_private) == MLDSA_DONE);
        HOLDS(!memcmp(at_once, of_private, 64));
        HOLDS(s->mu_begin(public_key, pk, context.at, context.length, state, MLDSA_STATE_LEN) == MLDSA_DONE);
    }
    uint8_t *whole = copy(state, MLDSA_STATE_LEN), *was = copy(state, MLDSA_STATE_LEN), last = state[MLDSA_STATE_LEN - 1];
    int is_broken = last == 0 || last > 136;
    uint32_t added = said(mldsa_mu_update(message.at, message.length, whole, MLDSA_STATE_LEN));
    HOLDS(added == (is_broken ? MLDSA_BROKEN_STATE : MLDSA_DONE));
    HOLDS(!is_broken || !memcmp(whole, was, MLDSA_STATE_LEN));
    for (size_t i = 0, from = 0; i < 5; i++) {
        size_t to = i < 4 ? from + cuts[i] % (message.length - from + 1) : message.length;
        HOLDS(mldsa_mu_update(message.at + from, to - from, state, MLDSA_STATE_LEN) == added);
        from = to;
    }
    HOLDS(!memcmp(state, whole, MLDSA_STATE_LEN));
    HOLDS(wrote(mldsa_mu_finish(state, MLDSA_STATE_LEN, mu, 64), mu, 64) == added);
    HOLDS(is_any || !memcmp(mu, at_once, 64));
}

int LLVMFuzzerTestOneInput(const uint8_t *data, size_t size);

int LLVMFuzzerTestOneInput(const uint8_t *data, size_t size)
{
    (void)der, (void)keys, (void)prepared, (void)pieces;
    sum = 0xCBF29CE484222325;
    TARGET((struct input){data, size});
    if (getenv("SUMS"))
        printf("%016llx\n", (unsigned long long)sum);
    while (held)
        free(blocks[--held]);
    return 0;
}
