/* mldsa_x86_64.h - which code libmldsa_c.a takes on x86-64
 *
 * `scripts/archive x86-64` puts two compilations of the same proved code into one library: for the level x86-64-v2, which
 * every call needs, and for x86-64-v3 (AVX2, BMI1 and 2, FMA, F16C, LZCNT, MOVBE, with the system saving the wide
 * registers), which is faster. Both give the same results. Your program does not need this header: the first call asks the
 * processor, and from then on calls take the code of the highest level that it has.
 */
#ifndef MLDSA_X86_64_H
#define MLDSA_X86_64_H

#ifdef __cplusplus
extern "C" {
#endif

/** Has the calls that begin from now on, in all threads, take the code of the highest level that the processor has and that
 * is at most `most`, 2 or 3. It is for tests and for measuring: with 2 the calls take the code of x86-64-v2, and with 3 what
 * they take by themselves.
 * @return that level */
int mldsa_x86_64_level(int most);

#ifdef __cplusplus
}
#endif
#endif
