/* For the build under AddressSanitizer alone: memory that runs out. The variable REFUSE_MEMORY has three numbers, FROM, ONE_OF
 * and UP_TO: of the requests for memory with these numbers one of so many is refused. The linker puts these functions before
 * malloc, calloc and realloc (--wrap). */
#include <stdint.h>
#include <stdio.h>
#include <stdlib.h>

void *__real_malloc(size_t len);
void *__real_calloc(size_t count, size_t len);
void *__real_realloc(void *at, size_t len);
void *__wrap_malloc(size_t len);
void *__wrap_calloc(size_t count, size_t len);
void *__wrap_realloc(void *at, size_t len);

static int is_refused(void) {
  static int is_read;
  static unsigned long from, one_of, up_to, asked;
  static uint64_t chance = 88172645463325252u;
  if (!is_read) {
    const char *said = getenv("REFUSE_MEMORY");
    if (said == NULL || sscanf(said, "%lu %lu %lu", &from, &one_of, &up_to) != 3) one_of = 0;
    is_read = 1;
  }
  asked++;
  if (one_of == 0 || asked < from || asked >= up_to) return 0;
  chance ^= chance << 13, chance ^= chance >> 7, chance ^= chance << 17;
  return chance % one_of == 0;
}

void *__wrap_malloc(size_t len) { return is_refused() ? NULL : __real_malloc(len); }

void *__wrap_calloc(size_t count, size_t len) { return is_refused() ? NULL : __real_calloc(count, len); }

void *__wrap_realloc(void *at, size_t len) { return is_refused() ? NULL : __real_realloc(at, len); }
