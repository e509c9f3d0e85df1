/* Prints the version three ways: the header's string, its three numbers, the library's. */
#include "noferkash.h"

#include <stdio.h>

int main(void) {
    printf("%s\n%d.%d.%d\n%s\n", NOFERKASH_VERSION, NOFERKASH_VERSION_MAJOR,
           NOFERKASH_VERSION_MINOR, NOFERKASH_VERSION_PATCH, noferkash_version());
    return 0;
}
