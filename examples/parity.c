/* parity: splits a file into eight shards, of which any two may be lost, and in each stripe some sectors of three others.
 *     parity split FILE      writes FILE.0 to FILE.7: the sectors of a device, then the CRC-32 of each
 *     parity join FILE       restores lost shards, and sectors that do not match their CRC-32, and writes FILE
 *     cc -o parity parity.c $(pkg-config --cflags --libs stair) -lz */
#include <stdio.h>
#include <stdlib.h>
#include <string.h>
#include <stair.h>
#include <zlib.h>

enum { N = 8, R = 4, BLOCKS = 20, SECTOR = STAIR_SECTOR, SUM = sizeof(uint32_t) };
static const struct stair_code code = {.n = N, .m = 2, .r = R, .e = (const uint64_t[]){1, 1, 2}, .classes = 3};
static size_t stripes, each; /* each shard has so many sectors */
static uint64_t size;        /* of the file; it is kept before the blocks */
static uint8_t *chunks, *erased, *data;
static uint32_t *sums;
static void fail(const char *name, const char *why) { fprintf(stderr, "parity: %s: %s\n", name, why), exit(1); }
static void take_memory(const char *name, size_t count) {
  stripes = count, each = count * R;
  chunks = calloc(N * each, SECTOR), erased = calloc(N * each, 1), sums = calloc(N * each, SUM), data = calloc(count * BLOCKS, SECTOR);
  if (!count || !chunks || !erased || !sums || !data) fail(name, count ? "too little memory" : "no shards");
}
/* Opens a shard, or the file itself if j is N. */
static FILE *opened(const char *file, int j, const char *mode) {
  char name[4096];
  return snprintf(name, sizeof name, "%s.%d", file, j), fopen(j < N ? name : file, mode);
}
static size_t size_of(FILE *file) {
  long size = fseek(file, 0, SEEK_END) ? 0 : ftell(file);
  return rewind(file), size < 0 ? 0 : (size_t)size;
}
static void save(const char *name, int j, const void *first, size_t bytes, const void *then, size_t more) {
  FILE *file = opened(name, j, "wb");
  if (!file || fwrite(first, 1, bytes, file) != bytes || fwrite(then, 1, more, file) != more || fclose(file)) fail(name, "can't be written");
}
static void move_blocks(int into_chunks) {
  for (size_t b = 0; b < stripes * BLOCKS; b++) {
    uint64_t slot, sector;
    if (stair_code_place(&code, stripes, b, &slot, &sector)) fail("a block", "has no place");
    uint8_t *cell = chunks + (slot * each + sector) * SECTOR, *block = data + b * SECTOR;
    memcpy(into_chunks ? cell : block, into_chunks ? block : cell, SECTOR);
  }
}
static uint32_t sum_of(size_t sector) { return (uint32_t)crc32(0, chunks + sector * SECTOR, SECTOR); }
static void split(const char *name) {
  FILE *file = opened(name, N, "rb");
  if (!file) fail(name, "not found");
  size = size_of(file);
  take_memory(name, (sizeof size + size + BLOCKS * SECTOR - 1) / (BLOCKS * SECTOR));
  memcpy(data, &size, sizeof size);
  if (fread(data + sizeof size, 1, size, file) != size || fclose(file)) fail(name, "can't be read");
  move_blocks(1);
  if (stair_code_encode(&code, STAIR_FEWEST, chunks, N * each * SECTOR)) fail(name, "can't be encoded");
}
static void join(const char *name) {
  FILE *files[N];
  size_t sizes[N] = {0}, largest = 0;
  for (int j = 0; j < N; j++)
    if ((files[j] = opened(name, j, "rb")) && (sizes[j] = size_of(files[j])) > largest) largest = sizes[j];
  take_memory(name, largest / (R * (SECTOR + SUM)));
  for (size_t j = 0, to = 0; j < N; j++, to += each) {
    int whole = sizes[j] == each * (SECTOR + SUM) && fread(chunks + to * SECTOR, SECTOR, each, files[j]) == each
                && fread(sums + to, SUM, each, files[j]) == each;
    for (size_t i = to; i < to + each; i++) erased[i] = !whole || sums[i] != sum_of(i);
    if (files[j]) fclose(files[j]);
  }
  if (stair_code_restore(&code, erased, N * each, chunks, N * each * SECTOR)) fail(name, "too much is lost");
  move_blocks(0);
  memcpy(&size, data, sizeof size);
  if (size > stripes * BLOCKS * SECTOR - sizeof size) fail(name, "damaged");
  save(name, N, data + sizeof size, size, data, 0);
}
int main(int argc, char **argv) {
  int joins = argc == 3 && !strcmp(argv[1], "join");
  if (argc != 3 || (!joins && strcmp(argv[1], "split"))) fail("usage", "parity split|join FILE");
  joins ? join(argv[2]) : split(argv[2]);
  for (size_t i = 0; i < N * each; i++) sums[i] = sum_of(i);
  for (int j = 0; j < N; j++) save(argv[2], j, chunks + j * each * SECTOR, each * SECTOR, sums + j * each, each * SUM);
  return free(chunks), free(erased), free(sums), free(data), 0;
}
