/* shelf: keeps stripes in memory as a store with eight devices would, loses two of them and some sectors of others, and restores all.
 *
 *     cc -o shelf shelf.c $(pkg-config --cflags --libs stair) */
#include <stdio.h>
#include <stdlib.h>
#include <string.h>

#include <stair.h>

enum { N = 8, R = 4, STRIPES = 64, SECTORS = N * STRIPES * R, BYTES = SECTORS * STAIR_SECTOR };

/* Any two devices may be lost, and in each stripe one sector of two further devices and two of a third. */
static const uint64_t coverage[] = {1, 1, 2};
static const struct stair_code code = {.n = N, .m = 2, .r = R, .e = coverage, .classes = 3};

static size_t sector(size_t device, size_t stripe, size_t row) { return (device * STRIPES + stripe) * R + row; }

static void expect(const char *what, uint32_t status, uint32_t expected) {
  if (status != expected) {
    fprintf(stderr, "shelf: %s: status %u\n", what, (unsigned)status);
    exit(1);
  }
}

/* Marks a sector as erased, and fills it with what a broken device might return. */
static void lose(uint8_t *erased, uint8_t *chunks, size_t at) {
  erased[at] = 1;
  memset(chunks + at * STAIR_SECTOR, 0xa5, STAIR_SECTOR);
}

int main(void) {
  uint8_t *chunks = malloc(BYTES), *kept = malloc(BYTES), *erased = calloc(SECTORS, 1);
  uint64_t broken;
  if (!chunks || !kept || !erased) return 1;
  for (size_t at = 0; at < BYTES; at++) chunks[at] = (uint8_t)rand();

  expect("encode", stair_code_encode(&code, STAIR_FEWEST, chunks, BYTES), STAIR_OK);
  expect("check", stair_code_check(&code, chunks, BYTES, &broken), STAIR_OK);
  memcpy(kept, chunks, BYTES);

  for (size_t stripe = 0; stripe < STRIPES; stripe++) {
    for (size_t row = 0; row < R; row++) {
      lose(erased, chunks, sector(1, stripe, row));
      lose(erased, chunks, sector(6, stripe, row));
    }
    lose(erased, chunks, sector(0, stripe, stripe % R));
    lose(erased, chunks, sector(3, stripe, 0));
    lose(erased, chunks, sector(4, stripe, 1));
    lose(erased, chunks, sector(4, stripe, 3));
  }
  expect("check of what is left", stair_code_check(&code, chunks, BYTES, &broken), STAIR_BROKEN);
  expect("restore", stair_code_restore(&code, erased, SECTORS, chunks, BYTES), STAIR_OK);
  if (memcmp(kept, chunks, BYTES)) {
    fputs("shelf: other bytes came back\n", stderr);
    return 1;
  }

  /* One sector more in one stripe is too much, and then nothing is changed. */
  lose(erased, chunks, sector(5, 17, 0));
  expect("restore of too much", stair_code_restore(&code, erased, SECTORS, chunks, BYTES), STAIR_LOST);
  printf("%d stripes of %d devices: two devices and four sectors of each stripe were lost, and all came back\n", STRIPES, N);
  free(chunks);
  free(kept);
  free(erased);
  return 0;
}
