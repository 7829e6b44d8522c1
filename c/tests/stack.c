/* Each call on a stack of the size that the header states, and no more: below it lies a page that faults. The stack is the one
 * on which a signal is handled.
 * `stack measure` prints what each call uses: SET NAME BYTES. `stack at-most` allows a call that needs much less than is stated. */
#define _GNU_SOURCE
#include "pem.h"

#include <signal.h>
#include <sys/mman.h>

enum { PAGE = 4096, ROOM = 1 << 20 };
static uint8_t *room;
static void (*chosen)(void);
static const struct set *s;
static uint8_t public_key[LONGEST_KEY], private_key[LONGEST_KEY], signature[LONGEST_SIGNATURE], seed[64];
static uint8_t checks[LONGEST_PREPARED_KEY], signs[LONGEST_PREPARED_KEY];
static uint32_t answer;

static void keygen(void) { answer = s->keygen(seed, 32, public_key, s->public_key_len, private_key, s->private_key_len); }
static void sign(void) { answer = s->sign(private_key, s->private_key_len, seed, 32, seed, 9, seed, 32, signature, s->signature_len); }
static void verify(void) { answer = s->verify(public_key, s->public_key_len, seed, 32, seed, 9, signature, s->signature_len); }
static void accepts(void)
{
    answer = s->accepts(public_key, s->public_key_len, seed, 32, seed, 9, signature, s->signature_len) != 1;
}
static void hash_sign(void)
{
    answer = s->hash_sign(private_key, s->private_key_len, seed, 32, seed, 9, SHA256_OID, 11, seed, 32, signature, s->signature_len);
}
static void hash_verify(void)
{
    answer = s->hash_verify(public_key, s->public_key_len, seed, 32, seed, 9, SHA256_OID, 11, signature, s->signature_len);
}
static void sign_mu(void) { answer = s->sign_mu(private_key, s->private_key_len, seed, 64, seed, 32, signature, s->signature_len); }
static void verify_mu(void) { answer = s->verify_mu(public_key, s->public_key_len, seed, 64, signature, s->signature_len); }
static void derive(void) { answer = s->public_key(private_key, s->private_key_len, public_key, s->public_key_len); }
static void check(void) { answer = s->check_private_key(private_key, s->private_key_len); }
static void whole(void) { answer = s->is_whole(private_key, s->private_key_len); }
static void pair(void) { answer = s->is_pair(private_key, s->private_key_len); }
static void pieces(void)
{
    static uint8_t state[MLDSA_STATE_LEN];
    answer = s->mu_begin(public_key, s->public_key_len, seed, 9, state, sizeof state)
        + s->mu_begin_private(private_key, s->private_key_len, seed, 9, state, sizeof state)
        + mldsa_mu_update(seed, 64, state, sizeof state) + mldsa_mu_finish(state, sizeof state, seed, 64);
}
static void small(void)
{
    static uint8_t text[MLDSA_TEXT_LEN], lengths[MLDSA_LENGTHS_LEN], name[MLDSA_NAME_LEN];
    answer = mldsa_lengths(44, lengths, sizeof lengths) + mldsa_name(44, name, sizeof name)
        + mldsa_text_of(MLDSA_NO_SEED, text, sizeof text) + mldsa_check_pre_hash(seed, 32, SHA256_OID, 11)
        + (mldsa_version() != MLDSA_VERSION);
}
static void prepare_public(void)
{
    answer = s->prepare_public_key(public_key, s->public_key_len, checks, s->prepared_public_key_len);
}
static void prepare_private(void)
{
    answer = s->prepare_private_key(private_key, s->private_key_len, signs, s->prepared_private_key_len);
}
static void sign_prepared(void)
{
    answer = s->sign_prepared(signs, s->prepared_private_key_len, seed, 32, seed, 9, seed, 32, signature, s->signature_len);
}
static void verify_prepared(void)
{
    answer = s->verify_prepared(checks, s->prepared_public_key_len, seed, 32, seed, 9, signature, s->signature_len);
}
static void hash_sign_prepared(void)
{
    answer = s->hash_sign_prepared(signs, s->prepared_private_key_len, seed, 32, seed, 9, SHA256_OID, 11, seed, 32, signature, s->signature_len);
}
static void hash_verify_prepared(void)
{
    answer = s->hash_verify_prepared(checks, s->prepared_public_key_len, seed, 32, seed, 9, SHA256_OID, 11, signature, s->signature_len);
}
static void sign_mu_prepared(void)
{
    answer = s->sign_mu_prepared(signs, s->prepared_private_key_len, seed, 64, seed, 32, signature, s->signature_len);
}
static void verify_mu_prepared(void)
{
    answer = s->verify_mu_prepared(checks, s->prepared_public_key_len, seed, 64, signature, s->signature_len);
}
static void der(void)
{
    static uint8_t file[LONGEST_DER];
    answer = s->public_key_to_der(public_key, s->public_key_len, file, s->public_key_der_len)
        + s->public_key_from_der(file, s->public_key_der_len, public_key, s->public_key_len)
        + s->private_key_to_der(private_key, s->private_key_len, file, s->private_key_der_len)
        + s->private_key_from_der(file, s->private_key_der_len, private_key, s->private_key_len)
        + s->seed_to_der(seed, 32, file, MLDSA_SEED_DER_LEN)
        + s->private_key_from_der(file, MLDSA_SEED_DER_LEN, private_key, s->private_key_len)
        + s->seed_from_der(file, MLDSA_SEED_DER_LEN, seed, 32) + s->both_to_der(seed, 32, file, s->both_der_len)
        + s->private_key_from_der(file, s->both_der_len, private_key, s->private_key_len)
        + s->seed_from_der(file, s->both_der_len, seed, 32);
}
/* (their texts are made elsewhere, on another stack) */
static uint8_t public_text[LONGEST_PEM], texts[3][LONGEST_PEM];
static size_t public_text_len, text_lens[3];
static void make_texts(void)
{
    static uint8_t file[LONGEST_DER];
    WANT(s->public_key_to_der(public_key, s->public_key_len, file, s->public_key_der_len), MLDSA_DONE);
    public_text_len = pem_of("PUBLIC KEY", file, s->public_key_der_len, public_text);
    WANT(s->seed_to_der(seed, 32, file, MLDSA_SEED_DER_LEN), MLDSA_DONE);
    text_lens[0] = pem_of("PRIVATE KEY", file, MLDSA_SEED_DER_LEN, texts[0]);
    WANT(s->private_key_to_der(private_key, s->private_key_len, file, s->private_key_der_len), MLDSA_DONE);
    text_lens[1] = pem_of("PRIVATE KEY", file, s->private_key_der_len, texts[1]);
    WANT(s->both_to_der(seed, 32, file, s->both_der_len), MLDSA_DONE);
    text_lens[2] = pem_of("PRIVATE KEY", file, s->both_der_len, texts[2]);
}
static void pem(void)
{
    answer = s->public_key_from_pem(public_text, public_text_len, public_key, s->public_key_len)
        + s->private_key_from_pem(texts[0], text_lens[0], private_key, s->private_key_len)
        + s->private_key_from_pem(texts[1], text_lens[1], private_key, s->private_key_len)
        + s->private_key_from_pem(texts[2], text_lens[2], private_key, s->private_key_len)
        + s->seed_from_pem(texts[0], text_lens[0], seed, 32) + s->seed_from_pem(texts[2], text_lens[2], seed, 32);
}
static void nothing(void) { answer = 0; }

/* What the system puts on the stack begins with the description of the signal. It is asked for, so that `nothing` is seen to take
 * all of that. */
static void handle(int number, siginfo_t *description, void *context)
{
    (void)number, (void)description, (void)context;
    chosen();
}

/* Runs a call on the last `size` bytes of the room, whose pages below are taken away if `tight`, and gives how many bytes of
 * it were written. */
static size_t used(void (*run)(void), size_t size, int tight)
{
    size_t untouched = 0, below = (ROOM - size) / PAGE * PAGE;
    stack_t stack;
    mprotect(room, ROOM, PROT_READ | PROT_WRITE);
    memset(room, 0xA5, ROOM);
    if (tight && mprotect(room, below, PROT_NONE))
        exit(2);
    stack.ss_sp = room + ROOM - size;
    stack.ss_size = size;
    stack.ss_flags = 0;
    chosen = run;
    if (sigaltstack(&stack, NULL) || raise(SIGUSR1))
        exit(2);
    WANT(answer, 0);
    while (untouched < size && room[ROOM - size + untouched] == 0xA5)
        untouched++;
    return size - untouched;
}

int main(int count, char **words)
{
    static const struct { const char *name; void (*run)(void); } CALLS[] = {
        {"KEYGEN", keygen}, {"SIGN", sign}, {"SIGN", hash_sign}, {"SIGN", sign_mu}, {"VERIFY", verify_mu},
        {"VERIFY", hash_verify}, {"VERIFY", verify}, {"VERIFY", accepts}, {"PUBLIC_KEY", derive}, {"CHECK", check}, {"WHOLE", whole}, {"PAIR", pair},
        {"PREPARE_PUBLIC_KEY", prepare_public}, {"PREPARE_PRIVATE_KEY", prepare_private}, {"SIGN_PREPARED", sign_prepared},
        {"VERIFY_PREPARED", verify_prepared}, {"SIGN_PREPARED", hash_sign_prepared}, {"VERIFY_PREPARED", hash_verify_prepared},
        {"SIGN_PREPARED", sign_mu_prepared}, {"VERIFY_PREPARED", verify_mu_prepared}, {"MU", pieces}, {"DER", der}, {"PEM", pem}};
    enum { COUNT = sizeof CALLS / sizeof *CALLS };
    int measure = count > 1 && strcmp(words[1], "measure") == 0;
    int at_most = count > 1 && strcmp(words[1], "at-most") == 0;
    struct sigaction action;
    size_t own;
    memset(&action, 0, sizeof action);
    action.sa_sigaction = handle;
    action.sa_flags = SA_ONSTACK | SA_SIGINFO;
    if (sigaction(SIGUSR1, &action, NULL))
        return 2;
    room = mmap(NULL, ROOM, PROT_READ | PROT_WRITE, MAP_PRIVATE | MAP_ANONYMOUS, -1, 0);
    own = used(nothing, ROOM, 0);
    for (s = SETS; s < SETS + 3; s++)
        for (int i = 0; i < COUNT; i++) {
            const size_t stated[COUNT] = {s->stack_keygen, s->stack_sign, s->stack_sign, s->stack_sign, s->stack_verify,
                                       s->stack_verify, s->stack_verify, s->stack_verify, s->stack_public_key, s->stack_check, s->stack_whole,
                                       s->stack_pair, s->stack_prepare_public_key, s->stack_prepare_private_key, s->stack_sign_prepared,
                                       s->stack_verify_prepared, s->stack_sign_prepared, s->stack_verify_prepared, s->stack_sign_prepared,
                                       s->stack_verify_prepared, MLDSA_STACK_MU, s->stack_der, s->stack_pem};
            size_t took;
            /* What is verified was signed by the call of its name. */
            if (CALLS[i].run == verify)
                used(sign, ROOM, 0);
            if (CALLS[i].run == hash_verify)
                used(hash_sign, ROOM, 0);
            if (CALLS[i].run == pem)
                make_texts();
            if (measure) {
                printf("%d %s %zu\n", s->number, CALLS[i].name, used(CALLS[i].run, ROOM, 0) - own);
                continue;
            }
            /* Handling a signal takes some of it. */
            took = used(CALLS[i].run, stated[i] + own, 1) - own;
            if (took > stated[i] || (!at_most && 4 * took < 3 * stated[i])) {
                printf("set %d, %s: %zu bytes used, %zu stated\n", s->number, CALLS[i].name, took, stated[i]);
                failures++;
            }
        }
    if (!measure)
        used(small, MLDSA_STACK_MU + own, 1);
    return failures != 0;
}
