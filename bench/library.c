// Times the library for C programs: library encode|restore ROUNDS K N M R E.. encodes K stripes at once, or restores a whole loss of
// each, so many times, and prints a sum of their bytes. The first stripes are made of numbers in turn.
#include <stdio.h>
#include <stdlib.h>
#include <string.h>

#include <stair.h>

int main(int argc, char **argv) {
  if (argc < 8) return 2;
  uint64_t e[32];
  size_t classes = (size_t)argc - 7, k = strtoul(argv[3], NULL, 10);
  if (classes > 32) return 2;
  for (size_t l = 0; l < classes; l++) e[l] = strtoull(argv[7 + l], NULL, 10);
  struct stair_code code = {strtoull(argv[4], NULL, 10), strtoull(argv[5], NULL, 10), strtoull(argv[6], NULL, 10), e, classes};
  size_t chunk = k * code.r, sectors = code.n * chunk, bytes = sectors * STAIR_SECTOR;
  uint8_t *chunks = malloc(bytes), *erased = calloc(sectors, 1);
  if (!chunks || !erased) return 1;
  for (size_t at = 0; at < bytes; at++) chunks[at] = (uint8_t)(31 * (at / STAIR_SECTOR) + 7 * at + 1);
  if (stair_code_encode(&code, STAIR_FEWEST, chunks, bytes)) return 1;
  // The first m chunks, and of the next ones as many sectors of each stripe as the coverage vector has.
  memset(erased, 1, code.m * chunk);
  for (size_t l = 0; l < classes; l++)
    for (size_t i = 0; i < chunk; i++) erased[(code.m + l) * chunk + i] = i % code.r < e[l];
  int restores = !strcmp(argv[1], "restore");
  for (long round = atol(argv[2]); round > 0; round--)
    if (restores ? stair_code_restore(&code, erased, sectors, chunks, bytes) : stair_code_encode(&code, STAIR_FEWEST, chunks, bytes)) return 1;
  uint32_t sum = 0;
  for (size_t at = 0; at < bytes; at++) sum = sum * 31 + chunks[at];
  printf("%u\n", sum);
  free(chunks);
  free(erased);
  return 0;
}
