/* Memory that is wiped before it is freed, for the library and for libcrypto: key pairs, passphrases and the frames that
 * held them go through both. */
#ifndef AGENT_MEMORY_H
#define AGENT_MEMORY_H

#include <stdbool.h>

/* Makes libcrypto take its memory here. To be called before any other call of libcrypto; false if it is too late. */
bool memory_for_libcrypto(void);

#endif
