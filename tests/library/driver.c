/* Makes one call of the library, in each way that it must bear, and puts out its status as a byte and then what it leaves.
 *
 *     driver encode METHOD K N M R E..     standard input: the chunks       puts out: status, chunks
 *     driver restore MARKS K N M R E..     so many bytes of `erased`, then the chunks; the same
 *     driver check - K N M R E..           the chunks                       status, the broken stripe (8 bytes, little endian)
 *     driver place BLOCK K N M R E..                                        status, slot and sector
 *     driver cost - K N M R E..                                             status, and the seven counts in place of chunks
 *
 * The call is made with each `malloc` failing in turn, with guard pages before or after each parameter, and by two threads at once. It
 * ends with status 1 where an answer differs, where a call changed what it must not, or where memory isn't given back. Standard error
 * says how often `malloc` failed. Each call is also made with NULL in place of each pointer, which must be answered by STAIR_SIZE. */
#define _GNU_SOURCE
#include <pthread.h>
#include <stdatomic.h>
#include <stdio.h>
#include <stdlib.h>
#include <string.h>
#include <sys/mman.h>
#include <unistd.h>

#include <stair.h>

static _Atomic long taken;               /* blocks that the library has */
static _Thread_local long left = -1;     /* calls of malloc and realloc before one fails; none does below 0 */
static _Thread_local int within;         /* is a call of the library being made? */
void *__real_malloc(size_t bytes);
void *__real_realloc(void *old, size_t bytes);
void __real_free(void *old);

static int fails(void) { return within && left >= 0 && left-- == 0; }
void *__wrap_malloc(size_t bytes) {
  void *it = fails() ? NULL : __real_malloc(bytes);
  taken += within && it;
  return it;
}
void *__wrap_realloc(void *old, size_t bytes) {
  void *it = fails() ? NULL : __real_realloc(old, bytes);
  taken += within && !old && it;
  return it;
}
void __wrap_free(void *old) {
  taken -= within && old;
  __real_free(old);
}

static void fail(const char *why) {
  fprintf(stderr, "driver: %s\n", why);
  exit(1);
}

/* Memory between two guard pages, right after the first or right before the second. */
static uint8_t *guarded(size_t bytes, int at_end) {
  size_t page = (size_t)sysconf(_SC_PAGESIZE), whole = (bytes + page - 1) / page * page;
  uint8_t *it = mmap(NULL, whole + 2 * page, PROT_NONE, MAP_PRIVATE | MAP_ANONYMOUS, -1, 0);
  if (it == MAP_FAILED || (whole && mprotect(it + page, whole, PROT_READ | PROT_WRITE))) fail("no memory for a test");
  return it + page + (at_end ? whole - bytes : 0);
}
static void *copy(const void *from, size_t bytes, int at_end) { return memcpy(guarded(bytes, at_end), from, bytes); }

static struct {
  const char *call;
  uint64_t number; /* METHOD, MARKS or BLOCK */
  uint64_t stripes, n, m, r, e[64];
  size_t classes, marks, bytes;
  uint8_t *erased, *chunks;
} asked;

struct outcome {
  uint32_t status;
  uint64_t first, second;
  struct stair_cost cost;
  uint8_t *chunks;
};
static const struct stair_cost UNTOUCHED = {77, 77, 77, 77, 77, 77, 77};

/* Makes the call over memory of its own. */
static struct outcome make(int at_end, long fails_after) {
  uint64_t *e = copy(asked.e, asked.classes * sizeof *e, at_end);
  uint64_t *first = copy(&(uint64_t){77}, 8, at_end), *second = copy(&(uint64_t){77}, 8, at_end);
  uint8_t *erased = copy(asked.erased, asked.marks, at_end), *chunks = copy(asked.chunks, asked.bytes, at_end);
  struct stair_code code = {asked.n, asked.m, asked.r, e, asked.classes};
  struct stair_cost *cost = copy(&UNTOUCHED, sizeof *cost, at_end);
  uint32_t status = 99;
  within = 1, left = fails_after;
  if (!strcmp(asked.call, "encode")) status = stair_code_encode(&code, (uint32_t)asked.number, chunks, asked.bytes);
  if (!strcmp(asked.call, "restore")) status = stair_code_restore(&code, erased, asked.marks, chunks, asked.bytes);
  if (!strcmp(asked.call, "check")) status = stair_code_check(&code, chunks, asked.bytes, first);
  if (!strcmp(asked.call, "place")) status = stair_code_place(&code, asked.stripes, asked.number, first, second);
  if (!strcmp(asked.call, "cost")) status = stair_code_cost(&code, cost);
  within = 0;
  if (memcmp(e, asked.e, asked.classes * sizeof *e)) fail("the coverage vector was changed");
  if (asked.marks && memcmp(erased, asked.erased, asked.marks)) fail("the erased sectors were changed");
  return (struct outcome){status, *first, *second, *cost, chunks};
}
static int is_unchanged(struct outcome it) {
  return it.first == 77 && it.second == 77 && !memcmp(&it.cost, &UNTOUCHED, sizeof it.cost)
         && !(asked.bytes && memcmp(it.chunks, asked.chunks, asked.bytes));
}
static int is_same(struct outcome a, struct outcome b) {
  return a.status == b.status && a.first == b.first && a.second == b.second && !memcmp(&a.cost, &b.cost, sizeof a.cost)
         && !(asked.bytes && memcmp(a.chunks, b.chunks, asked.bytes));
}

/* Is each pointer that is NULL answered so? */
static int refuses_null(void) {
  static const uint64_t e[] = {1};
  struct stair_code code = {4, 1, 2, e, 1}, bare = {4, 1, 2, NULL, 1};
  uint8_t erased[8] = {0}, chunks[8 * STAIR_SECTOR] = {0};
  uint64_t number;
  struct stair_cost cost;
  const uint32_t answers[] = {
    stair_code_encode(NULL, 0, chunks, sizeof chunks), stair_code_encode(&bare, 0, chunks, sizeof chunks),
    stair_code_encode(&code, 0, NULL, sizeof chunks), stair_code_restore(NULL, erased, 8, chunks, sizeof chunks),
    stair_code_restore(&bare, erased, 8, chunks, sizeof chunks), stair_code_restore(&code, NULL, 8, chunks, sizeof chunks),
    stair_code_restore(&code, erased, 8, NULL, sizeof chunks), stair_code_check(NULL, chunks, sizeof chunks, &number),
    stair_code_check(&bare, chunks, sizeof chunks, &number), stair_code_check(&code, NULL, sizeof chunks, &number),
    stair_code_check(&code, chunks, sizeof chunks, NULL), stair_code_place(NULL, 1, 0, &number, &number),
    stair_code_place(&bare, 1, 0, &number, &number), stair_code_place(&code, 1, 0, NULL, &number),
    stair_code_place(&code, 1, 0, &number, NULL), stair_code_cost(NULL, &cost), stair_code_cost(&bare, &cost), stair_code_cost(&code, NULL),
  };
  for (size_t i = 0; i < sizeof answers / sizeof *answers; i++)
    if (answers[i] != STAIR_SIZE) return 0;
  return 1;
}

static void *make_in_thread(void *to) {
  *(struct outcome *)to = make(1, -1);
  return NULL;
}

int main(int argc, char **argv) {
  if (argc < 7) fail("too few words");
  asked.call = argv[1], asked.number = strtoull(argv[2], NULL, 10);
  asked.stripes = strtoull(argv[3], NULL, 10);
  asked.n = strtoull(argv[4], NULL, 10), asked.m = strtoull(argv[5], NULL, 10), asked.r = strtoull(argv[6], NULL, 10);
  for (int i = 7; i < argc; i++) asked.e[asked.classes++] = strtoull(argv[i], NULL, 10);
  size_t room = 64 << 20, size = 0, more;
  uint8_t *input = malloc(room);
  if (!input) fail("no memory for a test");
  while ((more = fread(input + size, 1, room - size, stdin))) size += more;
  asked.marks = strcmp(asked.call, "restore") ? 0 : asked.number;
  if (asked.marks > size) fail("too little input");
  asked.erased = input, asked.chunks = input + asked.marks, asked.bytes = size - asked.marks;

  if (!refuses_null()) fail("NULL was taken");
  struct outcome whole = make(0, -1);
  if (!is_same(whole, make(1, -1))) fail("another answer at another place");
  long calls = 0;
  for (struct outcome it; (it = make(1, calls)).status == STAIR_MEMORY; calls++)
    if (!is_unchanged(it)) fail("a call without memory changed something");
  if (!is_same(whole, make(1, calls))) fail("another answer with as many calls of malloc as are needed");
  if (whole.status != STAIR_OK && whole.status != STAIR_BROKEN && !is_unchanged(whole)) fail("a refused call changed something");
  struct outcome both[2];
  pthread_t threads[2];
  for (int i = 0; i < 2; i++)
    if (pthread_create(&threads[i], NULL, make_in_thread, &both[i])) fail("no thread");
  for (int i = 0; i < 2; i++) pthread_join(threads[i], NULL);
  if (!is_same(whole, both[0]) || !is_same(whole, both[1])) fail("another answer in a thread");
  if (taken) fail("memory was kept");

  putchar((int)whole.status);
  for (int i = 0; i < 8; i++) putchar((int)(whole.first >> 8 * i & 255));
  for (int i = 0; i < 8; i++) putchar((int)(whole.second >> 8 * i & 255));
  const uint64_t *counts = &whole.cost.blocks;
  for (int k = 0; !strcmp(asked.call, "cost") && k < 7; k++)
    for (int i = 0; i < 8; i++) putchar((int)(counts[k] >> 8 * i & 255));
  fwrite(whole.chunks, 1, asked.bytes, stdout);
  fprintf(stderr, "%ld\n", calls);
  free(input);
  return fflush(stdout) ? 1 : 0;
}
