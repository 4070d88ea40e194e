/* The answers of the library that this is linked with: expect CASES.. writes of each file of cases the sums of its answers beside it, with the
 * ending .sums, and prints of each call how often it was made and how often it was accepted. Exit 1 if a call was never accepted. */
#define BEFORE()
#define AFTER()
#include "driver.h"

#include <stdio.h>
#include <stdlib.h>
#include <string.h>

static uint8_t cases[1 << 20];
static unsigned long made[256], accepted[256];

int main(int argc, char **argv)
{
    int missing = 0;
    for (int i = 1; i < argc; i++) {
        char name[4096];
        snprintf(name, sizeof name, "%s.sums", argv[i]);
        FILE *in = fopen(argv[i], "rb"), *out = fopen(name, "wb");
        if (!in || !out)
            return 2;
        size_t len = fread(cases, 1, sizeof cases, in);
        for (next = cases; next < cases + len;) {
            uint8_t call = *next++;
            uint32_t n = answer(call);
            uint8_t bytes[4] = {(uint8_t)n, (uint8_t)(n >> 8), (uint8_t)(n >> 16), (uint8_t)(n >> 24)};
            fwrite(bytes, 1, 4, out);
            made[call]++;
            accepted[call] += told == 0;
        }
        fclose(in);
        if (fclose(out))
            return 2;
    }
    for (int i = 0; i < CALLS; i++) {
        printf("%s %lu %lu\n", call_names[i], made[i], accepted[i]);
        missing += accepted[i] == 0;
    }
    return missing != 0;
}
