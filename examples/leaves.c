/* Runs the proved square root and narrowing against the machine's own: leaves STEP COUNT
   compares the roots of the f32 patterns 0, STEP, 2 STEP, .. and the narrowings of COUNT f64 patterns, random ones and ones near each f32. A NaN must be
   7FC00000. */
#include <errno.h>
#include <math.h>
#include <stdint.h>
#include <stdio.h>
#include <stdlib.h>
#include <string.h>

uint32_t ribbon_root_bits(uint32_t);
uint32_t ribbon_narrow_bits(uint64_t);

static uint32_t bits(float x) {
    uint32_t b;
    memcpy(&b, &x, 4);
    return x != x ? 0x7FC00000u : b;
}

static uint64_t state = 1;

static uint64_t next(void) { /* splitmix64 */
    uint64_t z = (state += 0x9E3779B97F4A7C15u);
    z = (z ^ (z >> 30)) * 0xBF58476D1CE4E5B9u;
    z = (z ^ (z >> 27)) * 0x94D049BB133111EBu;
    return z ^ (z >> 31);
}

/* up to eighteen digits, and nothing else */
static int is_number(const char *s, uint64_t *n) {
    *n = strtoull(s, 0, 10);
    return *s && strspn(s, "0123456789") == strlen(s) && strlen(s) <= 18;
}

int main(int argc, char **argv) {
    uint64_t step, count, roots = 0;
    if (argc != 3 || !is_number(argv[1], &step) || !is_number(argv[2], &count) || !step) {
        fprintf(stderr, "usage: leaves STEP COUNT   (whole numbers; STEP is 1 or more)\n");
        return 2;
    }
    for (uint64_t b = 0; b < 0x100000000u; b += step, roots++) {
        uint32_t p = (uint32_t)b;
        float x;
        memcpy(&x, &p, 4);
        if (ribbon_root_bits(p) != bits(sqrtf(x))) {
            printf("root of %08X: %08X, and the machine has %08X\n", p, ribbon_root_bits(p), bits(sqrtf(x)));
            return 1;
        }
    }
    for (uint64_t i = 0; i < count; i++) {
        uint64_t b = next();
        double x;
        if (i % 2) { /* an f32, or a tie between two, and its neighbours */
            uint32_t p = (uint32_t)next();
            float f;
            memcpy(&f, &p, 4);
            x = f;
            memcpy(&b, &x, 8);
            b += (next() % 2 << 28) + next() % 3 - 1;
        }
        memcpy(&x, &b, 8);
        if (ribbon_narrow_bits(b) != bits((float)x)) {
            printf("narrowing %016llX: %08X, and the machine has %08X\n", (unsigned long long)b, ribbon_narrow_bits(b), bits((float)x));
            return 1;
        }
    }
    printf("%llu roots and %llu narrowings as the machine has them\n", (unsigned long long)roots, (unsigned long long)count);
    if (!fflush(stdout) && !ferror(stdout)) return 0;
    fprintf(stderr, "leaves: standard output cannot be written: %s\n", strerror(errno));
    return 1;
}
