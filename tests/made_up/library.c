/* A made-up library of a release, for the processors that LEVEL names, which it tells. */
#include <stdint.h>

uint32_t jlsrec_version(void) { return 100; }
const char *made_for(void) { return LEVEL; }
