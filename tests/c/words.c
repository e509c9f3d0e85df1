/* Prints the words of every number that an answer can hold, and of some that it cannot. */
#include "noferkash.h"

#include <limits.h>
#include <stdio.h>

int main(void) {
    for (int number = 0; number <= 255; number++) {
        printf("%d %s\n", number, noferkash_refusal_words(number));
    }
    printf("%d %s\n", -1, noferkash_refusal_words(-1));
    printf("%d %s\n", 256, noferkash_refusal_words(256));
    printf("least %s\n", noferkash_refusal_words(INT_MIN));
    printf("greatest %s\n", noferkash_refusal_words(INT_MAX));
    return 0;
}
