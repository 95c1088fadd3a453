/* free() of a client under test (-Wl,--wrap=free): looks in each block before it is freed for the first line of the file that
 * LOOKED_FOR names, as it is and as hexadecimal digits. */
#include <fcntl.h>
#include <malloc.h>
#include <stdio.h>
#include <stdlib.h>
#include <string.h>
#include <unistd.h>

void __real_free(void *at);
void __wrap_free(void *at);

static unsigned long looked, found;

static const char *looked_for(void) {
  static char text[256];
  const char *path = getenv("LOOKED_FOR");
  if (text[0] != 0 || path == NULL) return text[0] == 0 ? NULL : text;
  int file = open(path, O_RDONLY);
  if (file < 0 || read(file, text, sizeof text - 1) <= 0) abort();
  close(file);
  text[strcspn(text, "\n")] = 0;
  return text;
}

void __wrap_free(void *at) {
  const char *text = looked_for();
  if (at != NULL && text != NULL) {
    size_t len = strlen(text), room = malloc_usable_size(at), digits = 0;
    char hex[512];
    for (size_t i = 0; i < len && digits + 3 < sizeof hex; i++) digits += (size_t)sprintf(hex + digits, "%02x", (unsigned char)text[i]);
    const char *block = at;
    for (size_t i = 0; i + len <= room; i++) found += memcmp(block + i, text, len) == 0;
    for (size_t i = 0; i + digits <= room; i++) found += memcmp(block + i, hex, digits) == 0;
    looked++;
  }
  __real_free(at);
}

__attribute__((destructor)) static void tell(void) {
  if (looked != 0) fprintf(stderr, "looked at %lu blocks\n", looked);
  if (found != 0) fprintf(stderr, "found %lu times\n", found);
}
