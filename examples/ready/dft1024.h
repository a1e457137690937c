/* program size 1024 mod 1152921504606830593 procs 1 line 1 lanes 8 regs 113 */
#ifndef DFT1024_H
#define DFT1024_H
#include <stdint.h>
#define DFT1024_SIZE 1024
#define DFT1024_WORDS 1024
#define DFT1024_WORK 2048
#define DFT1024_LINE_BYTES 8
#define DFT1024_MODULUS 1152921504606830593ULL
#define DFT1024_PROCS 1
#define DFT1024_PHASES 1
/* out, work: any words before the first phase. */
#ifdef __cplusplus
extern "C" {
#endif
/* dft1024 does all phases, of each phase one processor after another. Threads call dft1024_phase(k, q, ..)
 * for each phase k below DFT1024_PHASES, with all q below DFT1024_PROCS at once and a barrier after each k. Both leave the same.
 * in: DFT1024_WORDS words below DFT1024_MODULUS, which stay as they are. With -DCHECK the functions stop at a greater one.
 * out: DFT1024_WORDS words. The first DFT1024_SIZE get the results, in the order of the listing (the natural one for
 * transforms), below DFT1024_MODULUS.
 * work: DFT1024_WORK words. No two of the three arrays overlap.
 * A line has DFT1024_LINE_BYTES bytes. Where each array begins at a multiple of that, no processor touches a line
 * that another one writes in the phase. Best at multiples of 64 bytes, too. */
void dft1024(uint64_t *out, const uint64_t *in, uint64_t *work);
void dft1024_phase(uint64_t k, uint64_t q, uint64_t *out, const uint64_t *in, uint64_t *work);
#ifdef __cplusplus
}
#endif
#endif
