// Times plain C beside which bench/run puts the kernels: reference KERNEL ROUNDS runs one so many times and prints its bytes.
//
// `add` adds a multiple of 512 bytes to others by a table of 256 products. `encode N M R E..` does as many of these as
// upstairs encoding takes steps for this geometry, each solved symbol of 512 bytes from as many known ones as it has, which
// all stand in one array; it copies nothing else. `isal` is `add` by ISA-L's kernel, where that is there: the one with AVX2 where
// this is compiled for it, else the one with SSE. `dot N M R E..` takes the steps of upstairs encoding by ISA-L's dot products of
// the same width, up to four symbols at once, in its order and groups; it copies nothing else. `ec N M R K` encodes K stripes of n-m chunks of r sectors
// by m further ones (Reed-Solomon), in one call of ISA-L's `ec_encode_data`, which chooses the width itself. `redo N CELLS..` makes the calls of redos, each of so many cells, over the image files
// of N devices in the current folder: their writes of sealed sectors and their syncs, and no seal.
#define _GNU_SOURCE
#include <fcntl.h>
#include <stdint.h>
#include <stdio.h>
#include <stdlib.h>
#include <string.h>
#include <unistd.h>
#ifdef ISAL
#include <isa-l.h>
#ifdef __AVX2__
#define KERNEL(name) name##_avx2
#else
#define KERNEL(name) name##_sse
#endif
#endif

enum { SYMBOL = 512 };

static uint8_t products[256][256];

static uint8_t product(unsigned a, unsigned b) {
  unsigned sum = 0;
  for (; b; b >>= 1, a = a << 1 ^ (a & 0x80 ? 0x11D : 0))
    if (b & 1) sum ^= a;
  return sum;
}

static void mul_add(uint8_t *restrict into, const uint8_t *restrict from, uint8_t by) {
  const uint8_t *row = products[by];
  for (int k = 0; k < SYMBOL; k++) into[k] ^= row[from[k]];
}

// The symbol at place `into` from `known` others, of so many in all.
static void solve(uint8_t (*symbols)[SYMBOL], int count, int into, int known) {
  memset(symbols[into], 0, SYMBOL);
  for (int i = 1; i <= known; i++) mul_add(symbols[into], symbols[(into + i) % count], 2 + i);
}

// Upstairs encoding takes (n-m)(m·r+s) steps for the parities, n-m for each symbol, and r(n-m)·e_max for virtual symbols, r
// for each.
static void encode(uint8_t (*symbols)[SYMBOL], int n, int m, int r, int s, int most) {
  int count = n * r;
  for (int i = 0; i < m * r + s; i++) solve(symbols, count, i, n - m);
  for (int i = 0; i < (n - m) * most; i++) solve(symbols, count, i % count, r);
}

#ifdef ISAL
// The first symbols from `known` others, by tables of 32 bytes each.
static void dot(uint8_t (*symbols)[SYMBOL], uint8_t (*tables)[32], int wanted, int known) {
  uint8_t *from[32], *into[32];
  for (int i = 0; i < known; i++) from[i] = symbols[wanted + i];
  for (int d = 0; d < wanted; d++) into[d] = symbols[d];
  for (int d = 0; d < wanted; d += 4) {
    uint8_t *by = tables[d * known];
    switch (wanted - d) {
      case 1: KERNEL(gf_vect_dot_prod)(SYMBOL, known, by, from, into[d]); break;
      case 2: KERNEL(gf_2vect_dot_prod)(SYMBOL, known, by, from, into + d); break;
      case 3: KERNEL(gf_3vect_dot_prod)(SYMBOL, known, by, from, into + d); break;
      default: KERNEL(gf_4vect_dot_prod)(SYMBOL, known, by, from, into + d);
    }
  }
}

// Of the n-m chunks without row parities, from the one with the fewest global parities up, e has how many these are. For each more of
// them than before a virtual row is solved in the chunks that are left, and then the chunk with as many virtual symbols as the most
// of them. At last each row is solved in the m chunks of row parities.
static void encode_by_dots(uint8_t (*symbols)[SYMBOL], uint8_t (*tables)[32], int n, int m, int r, const int *e, int classes) {
  int solved = 0;
  for (int left = n - m; left > 0; left--) {
    int count = left > classes ? 0 : e[classes - left];
    for (; solved < count; solved++) dot(symbols, tables, left, n - m);
    dot(symbols, tables, e[classes - 1], r);
  }
  for (int i = 0; i < r; i++) dot(symbols, tables, m, n - m);
}
#endif

enum { SEALED = 544, GATE = 2, BODY = 3 };

static int devices[32];

static void put(int device, int sector) {
  static uint8_t sealed[SEALED];
  if (pwrite(devices[device], sealed, SEALED, (off_t)sector * SEALED) != SEALED) exit(1);
}

static void sync_all(int n) {
  for (int j = 0; j < n; j++)
    if (fdatasync(devices[j])) exit(1);
}

// The body, the gates, the cells, each of the device in whose turn it is, and the gates again; each is synced.
static void redo(int n, int cells) {
  for (int j = 0; j < n; j++)
    for (int k = 0; k < cells; k++) put(j, BODY + k);
  sync_all(n);
  for (int j = 0; j < n; j++) put(j, GATE);
  sync_all(n);
  for (int k = 0; k < cells; k++) put(k % n, BODY + cells + k / n);
  sync_all(n);
  for (int j = 0; j < n; j++) put(j, GATE);
  sync_all(n);
}

int main(int argc, char **argv) {
  if (argc < 3) return 2;
  long rounds = atol(argv[2]);
  static uint8_t symbols[1024][SYMBOL];
  for (int i = 0; i < 1024; i++)
    for (int k = 0; k < SYMBOL; k++) symbols[i][k] = 31 * i + 7 * k + 1;
  for (int a = 0; a < 256; a++)
    for (int b = 0; b < 256; b++) products[a][b] = product(a, b);
  if (!strcmp(argv[1], "add")) {
    for (long i = 0; i < rounds; i++) mul_add(symbols[0], symbols[1], 2 + i % 254);
  } else if (!strcmp(argv[1], "encode") && argc > 6) {
    int n = atoi(argv[3]), m = atoi(argv[4]), r = atoi(argv[5]), s = 0, most = 0;
    for (int i = 6; i < argc; i++) {
      int e = atoi(argv[i]);
      s += e;
      if (e > most) most = e;
    }
    for (long i = 0; i < rounds; i++) encode(symbols, n, m, r, s, most);
  } else if (!strcmp(argv[1], "redo") && argc > 4) {
    int n = atoi(argv[3]);
    if (n < 1 || n > 32) return 2;
    for (int j = 0; j < n; j++) {
      char name[16];
      snprintf(name, sizeof name, "dev%02d.img", j);
      if ((devices[j] = open(name, O_RDWR | O_CREAT, 0666)) < 0) return 1;
    }
    for (long i = 0; i < rounds; i++)
      for (int k = 4; k < argc; k++) redo(n, atoi(argv[k]));
#ifdef ISAL
  } else if (!strcmp(argv[1], "isal")) {
    unsigned char tables[254][32];
    for (int by = 0; by < 254; by++) gf_vect_mul_init(2 + by, tables[by]);
    for (long i = 0; i < rounds; i++) KERNEL(gf_vect_mad)(SYMBOL, 1, 0, tables[i % 254], symbols[1], symbols[0]);
  } else if (!strcmp(argv[1], "dot") && argc > 6) {
    static uint8_t tables[1024][32];
    for (int k = 0; k < 1024; k++) gf_vect_mul_init(2 + k % 254, tables[k]);
    int e[32], classes = argc - 6;
    if (classes > 32) return 2;
    for (int i = 0; i < classes; i++) e[i] = atoi(argv[6 + i]);
    for (long i = 0; i < rounds; i++) encode_by_dots(symbols, tables, atoi(argv[3]), atoi(argv[4]), atoi(argv[5]), e, classes);
  } else if (!strcmp(argv[1], "ec") && argc > 6) {
    int n = atoi(argv[3]), m = atoi(argv[4]), known = n - m, bytes = atoi(argv[5]) * atoi(argv[6]) * SYMBOL;
    uint8_t *chunks[32], matrix[32 * 32], *tables = malloc(32 * 32 * 32);
    if (m < 1 || known < 1 || n > 32 || !tables) return 2;
    for (int j = 0; j < n; j++) {
      if (!(chunks[j] = malloc(bytes))) return 1;
      for (int i = 0; i < bytes; i++) chunks[j][i] = 31 * j + 7 * i + 1;
    }
    gf_gen_cauchy1_matrix(matrix, n, known);
    ec_init_tables(known, m, matrix + known * known, tables);
    for (long i = 0; i < rounds; i++) ec_encode_data(bytes, known, m, tables, chunks, chunks + known);
    memcpy(symbols[0], chunks[known], SYMBOL);
#endif
  } else {
    return 2;
  }
  unsigned sum = 0;
  for (int k = 0; k < SYMBOL; k++) sum = sum * 31 + symbols[0][k];
  printf("%u\n", sum);
  return 0;
}
