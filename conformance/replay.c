/* Gives the function that fuzzes, of fuzz_library.c, the inputs on standard input: each follows its
 * size, which is four bytes, the lowest first. */
#include <stdint.h>
#include <stdio.h>
#include <stdlib.h>

int LLVMFuzzerTestOneInput(const uint8_t *bytes, size_t count);

int main(void) {
    uint8_t size[4];
    while (fread(size, 1, sizeof size, stdin) == sizeof size) {
        size_t count =
            size[0] | (size_t)size[1] << 8 | (size_t)size[2] << 16 | (size_t)size[3] << 24;
        uint8_t *bytes = (uint8_t *)malloc(count ? count : 1);
        if (!bytes || fread(bytes, 1, count, stdin) != count) {
            fprintf(stderr, "replay: an input is not whole\n");
            return 1;
        }
        LLVMFuzzerTestOneInput(bytes, count);
        free(bytes);
    }
    return 0;
}
