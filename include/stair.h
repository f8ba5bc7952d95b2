/* stair.h: erasure codes that restore lost devices and bad sectors at once (STAIR codes: Li and Lee, FAST 2014).
 *
 * A stripe has n chunks, one for each device, of r sectors of 512 bytes. It survives the loss of any m whole chunks and, at the same
 * time, of e[0], e[1], .. sectors of as many further chunks as there are numbers in e.
 *
 * MEMORY. Of k stripes it is n chunks one after the other, each with its r sectors of each stripe in order, as a store with n devices
 * has them: sector i of stripe s in chunk j is number (j * k + s) * r + i of n * r * k. k may be 0.
 *
 * Each call tests all that it is handed and keeps no state. Calls on different memory may run at once, in any threads. The memory of
 * two parameters of a call must not overlap, and nobody else may use it meanwhile. A call takes memory by `malloc`, and gives it
 * back before it returns. It isn't to be made in a signal handler, or in the forked child of a process with threads.
 *
 * The library is proved: each call meets what is said of it here, touches no byte outside of what it is handed, and returns. */
#ifndef STAIR_H
#define STAIR_H

#include <stddef.h>
#include <stdint.h>

#ifdef __cplusplus
extern "C" {
#endif

enum { STAIR_SECTOR = 512 };

/* What a call answers. If it is neither OK nor BROKEN, the call changed nothing. */
enum stair_status {
  STAIR_OK = 0,
  /* The first limit that the geometry breaks, in this order. */
  STAIR_LIMIT_DEVICES = 1,  /* 3 <= n <= 32 */
  STAIR_LIMIT_PARITY = 2,   /* 1 <= m */
  STAIR_LIMIT_MAJORITY = 3, /* 2m < n */
  STAIR_LIMIT_CLASSES = 4,  /* 1 <= classes <= n - m */
  STAIR_LIMIT_ROWS = 5,     /* 1 <= r <= 32 */
  STAIR_LIMIT_COVERAGE = 6, /* each e[l] is 1 to r, and none is below the one before */
  STAIR_LIMIT_BLOCKS = 7,   /* a stripe has at least one data sector: e[0] + e[1] + .. < r * (n - m) */
  STAIR_LIMIT_SECTORS = 8,  /* 1 <= stripes and 3 + n * r + r * stripes < 2^32, of `stair_place` alone */
  STAIR_SIZE = 9,           /* the memory isn't that of whole stripes, another size doesn't fit it, or a pointer is NULL */
  STAIR_METHOD = 10,        /* no such method */
  STAIR_LOST = 11,          /* more is erased in some stripe than the code restores for certain */
  STAIR_BROKEN = 12,        /* some stripe isn't a codeword */
  STAIR_MEMORY = 13         /* `malloc` failed */
};

/* How a stripe is encoded. All give the same sectors, in different numbers of steps. */
enum stair_method {
  STAIR_STANDARD = 0,   /* each parity from the data sectors alone */
  STAIR_UPSTAIRS = 1,   /* parities by parities, as lost sectors are restored */
  STAIR_DOWNSTAIRS = 2, /* parities by parities, row by row */
  STAIR_FEWEST = 3      /* the one that takes the fewest steps: the usual choice */
};

/* Makes each stripe the codeword of its data sectors: fills in the parities, and keeps all data sectors. */
uint32_t stair_encode(uint64_t n, uint64_t m, uint64_t r, const uint64_t *e, size_t classes, uint32_t method,
                      uint8_t (*sectors)[STAIR_SECTOR], size_t count);

/* Restores the erased sectors of each stripe, and keeps all others. `erased` has a byte for each sector in the order of memory, which
 * isn't 0 where the sector is erased. What erased sectors hold doesn't count. If the others are those of a codeword, the stripe is that
 * codeword afterwards. LOST exactly where the erased sectors of some stripe aren't covered. They are covered if this holds of what is
 * left without the rows that have at most m of them: leave out the m chunks with the most; each other chunk that has any has a number
 * l of its own, and at most e[l] of them. */
uint32_t stair_restore(uint64_t n, uint64_t m, uint64_t r, const uint64_t *e, size_t classes, const uint8_t *erased, size_t marks,
                       uint8_t (*sectors)[STAIR_SECTOR], size_t count);

/* Tells whether all stripes are codewords. If not, the answer is BROKEN, and `broken` the first stripe that is none. */
uint32_t stair_check(uint64_t n, uint64_t m, uint64_t r, const uint64_t *e, size_t classes, const uint8_t (*sectors)[STAIR_SECTOR],
                     size_t count, uint64_t *broken);

/* Tells where data sector `block` of so many stripes lies: in chunk `slot`, and there it is number `sector`. The data sectors are counted
 * from stripe to stripe, and in a stripe row by row. SIZE if there are fewer. */
uint32_t stair_place(uint64_t n, uint64_t m, uint64_t r, const uint64_t *e, size_t classes, uint64_t stripes, uint64_t block,
                     uint64_t *slot, uint64_t *sector);

/* What the code costs, for each stripe. A multiply-add adds a multiple of a sector to another one. */
struct stair_cost {
  uint64_t blocks;   /* data sectors */
  uint64_t cells;    /* all sectors, n * r */
  uint64_t up;       /* multiply-adds of encoding upstairs */
  uint64_t down;     /* downstairs */
  uint64_t standard; /* and by the standard method */
  uint64_t least;    /* the least number of parities that change with a data sector */
  uint64_t greatest; /* and the greatest */
};
uint32_t stair_cost(uint64_t n, uint64_t m, uint64_t r, const uint64_t *e, size_t classes, struct stair_cost *cost);

/* The same over a code that is described once, and memory by its bytes. A pointer that is NULL is answered by SIZE. */
struct stair_code {
  uint64_t n, m, r;
  const uint64_t *e;
  size_t classes; /* how many numbers e has */
};

static inline uint32_t stair_code_encode(const struct stair_code *code, uint32_t method, uint8_t *chunks, size_t bytes) {
  if (!code || !code->e || !chunks || bytes % STAIR_SECTOR) return STAIR_SIZE;
  return stair_encode(code->n, code->m, code->r, code->e, code->classes, method, (uint8_t(*)[STAIR_SECTOR])chunks, bytes / STAIR_SECTOR);
}

static inline uint32_t stair_code_restore(const struct stair_code *code, const uint8_t *erased, size_t marks, uint8_t *chunks,
                                          size_t bytes) {
  if (!code || !code->e || !erased || !chunks || bytes % STAIR_SECTOR) return STAIR_SIZE;
  return stair_restore(code->n, code->m, code->r, code->e, code->classes, erased, marks, (uint8_t(*)[STAIR_SECTOR])chunks,
                       bytes / STAIR_SECTOR);
}

static inline uint32_t stair_code_check(const struct stair_code *code, const uint8_t *chunks, size_t bytes, uint64_t *broken) {
  if (!code || !code->e || !chunks || !broken || bytes % STAIR_SECTOR) return STAIR_SIZE;
  return stair_check(code->n, code->m, code->r, code->e, code->classes, (const uint8_t(*)[STAIR_SECTOR])chunks, bytes / STAIR_SECTOR,
                     broken);
}

static inline uint32_t stair_code_place(const struct stair_code *code, uint64_t stripes, uint64_t block, uint64_t *slot,
                                        uint64_t *sector) {
  if (!code || !code->e || !slot || !sector) return STAIR_SIZE;
  return stair_place(code->n, code->m, code->r, code->e, code->classes, stripes, block, slot, sector);
}

static inline uint32_t stair_code_cost(const struct stair_code *code, struct stair_cost *cost) {
  if (!code || !code->e || !cost) return STAIR_SIZE;
  return stair_cost(code->n, code->m, code->r, code->e, code->classes, cost);
}

#ifdef __cplusplus
}
#endif

#endif
