// Transforms 1024 words, and compares some results with the definition.
//   cc -O3 -march=native main.c dft1024.c -o main && ./main
#include <inttypes.h>
#include <stdio.h>
#include "dft1024.h"

#define MODULUS DFT1024_MODULUS
#define ROOT UINT64_C(984081769261068913)

// Modulo MODULUS
static uint64_t times(uint64_t a, uint64_t b) { return (unsigned __int128)a * b % MODULUS; }

int main(void) {
  static _Alignas(64) uint64_t in[1024], out[1024], work[DFT1024_WORK];
  for (int l = 0; l < 1024; l++) in[l] = times(l + 1, l + 1);
  dft1024(out, in, work);
  uint64_t root = 1;  // ROOT to the power k
  for (int k = 0; k < 1024; k++, root = times(root, ROOT)) {
    uint64_t sum = 0, power = 1;
    for (int l = 0; l < 1024; l++, power = times(power, root)) sum = (sum + times(in[l], power)) % MODULUS;
    if (out[k] != sum) return printf("place %d: %" PRIu64 ", not %" PRIu64 "\n", k, out[k], sum), 1;
  }
  puts("all 1024 results are right");
}
