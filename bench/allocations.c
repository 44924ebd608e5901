/* Counts what a program allocates, lets one allocation fail, and looks into what is given back: for bench/allocations, which loads it
   before the program. Words of the environment: FAIL_AT, the number of the allocation that fails, from 1 on; REPORT, the file that gets a
   line at the end, "ALLOCATIONS FREED HITS": how many allocations there were, how many blocks were given back, and how many of these had a
   secret in them; SECRETS, the secrets in hexadecimal digits, with commas between them. */
#include <fcntl.h>
#include <malloc.h>
#include <stdio.h>
#include <stdlib.h>
#include <string.h>
#include <unistd.h>

extern void *__libc_malloc(size_t), *__libc_calloc(size_t, size_t), *__libc_realloc(void *, size_t);
extern void __libc_free(void *);

static unsigned long allocations, freed, hits, fail_at;
static unsigned char secrets[64][128];
static size_t sizes[64], count;
static const char *report;
static int ready;

static int digit(char c) { return c <= '9' ? c - '0' : c - 'a' + 10; }

__attribute__((constructor)) static void begin(void) {
  const char *at = getenv("SECRETS"), *number = getenv("FAIL_AT");
  report = getenv("REPORT");
  fail_at = number ? strtoul(number, NULL, 10) : 0;
  while (at && at[0] && at[1] && count < 64) {
    if (*at == ',') { count++, at++; continue; }
    if (sizes[count] < sizeof secrets[0]) secrets[count][sizes[count]++] = (unsigned char)(digit(at[0]) * 16 + digit(at[1]));
    at += 2;
  }
  count++;
  ready = 1;
}

__attribute__((destructor)) static void end(void) {
  char line[96];
  int file = report ? open(report, O_WRONLY | O_CREAT | O_TRUNC, 0600) : -1, size;
  ready = 0;
  size = snprintf(line, sizeof line, "%lu %lu %lu\n", allocations, freed, hits);
  if (file >= 0 && write(file, line, (size_t)size) != size) _exit(99);
}

static int fails(void) { return ready && ++allocations == fail_at; }

static void look(void *block) {
  size_t size, each;
  if (!ready || !block) return;
  freed++;
  size = malloc_usable_size(block);
  for (each = 0; each < count; each++)
    if (sizes[each] && memmem(block, size, secrets[each], sizes[each])) { hits++; return; }
}

void *malloc(size_t size) { return fails() ? NULL : __libc_malloc(size); }
void *calloc(size_t number, size_t size) { return fails() ? NULL : __libc_calloc(number, size); }

/* A block that grows is copied here, so that what is left of the old one is looked into. */
void *realloc(void *block, size_t size) {
  void *other;
  size_t old;
  if (!block) return malloc(size);
  if (fails()) return NULL;
  old = malloc_usable_size(block);
  if (size <= old) return block;
  if (!(other = __libc_malloc(size))) return NULL;
  memcpy(other, block, old < size ? old : size);
  look(block);
  __libc_free(block);
  return other;
}

void free(void *block) {
  look(block);
  __libc_free(block);
}
