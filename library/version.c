/* The version of the library that a program runs with, which may be a later one
 * than that of the header it was compiled with. */
#include "noferkash.h"

const char *noferkash_version(void) {
    return NOFERKASH_VERSION;
}
