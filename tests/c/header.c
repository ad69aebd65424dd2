/* Uses every name of ribbon.h, as C89, C11 and C++17 (tests/c/run). A sum that is wrong is an array of -1 places. */
#include "ribbon.h"

typedef char job_limit[RIBBON_MAX_JOB == 13 + RIBBON_MAX_CHAINS + 9 * 65535L + 33 * 65535L ? 1 : -1];
typedef char scratch[RIBBON_SCRATCH_WORDS(RIBBON_MAX_RESIDUES) == 131072 && RIBBON_SCRATCH_FLOATS(1 + 1) == 64 ? 1 : -1];
typedef char vertex_limit[RIBBON_MAX_VERTICES == 1 << 20 ? 1 : -1];
typedef char kinds[RIBBON_COIL == 0 && RIBBON_HELIX == 1 && RIBBON_SHEET == 2 ? 1 : -1];
typedef char numbers[RIBBON_BAD_LENGTH == 1 && RIBBON_BAD_VERSION == 2 && RIBBON_BAD_COUNTS == 3 && RIBBON_BAD_SIZE == 4 && RIBBON_BAD_VISIBILITY == 5
    && RIBBON_BAD_KIND == 6 && RIBBON_BAD_ATOM == 7 && RIBBON_BAD_COORDINATE == 8 && RIBBON_NO_SCRATCH == 9 && RIBBON_TOO_MANY_VERTICES == 10
    && RIBBON_NO_ROOM == 11 && RIBBON_SHORT_LINE == 12 && RIBBON_BAD_NUMBER == 13 && RIBBON_ABSENT_RESIDUE == 14 && RIBBON_PAST_LIMITS == 15
    && RIBBON_NO_JOB_ROOM == 16 && RIBBON_INCONSISTENT == 17 && RIBBON_NO_STL_ROOM == 18 && RIBBON_NOT_STL == 19
    && RIBBON_BAD_SHARES == 20 ? 1 : -1];
typedef char records[RIBBON_RECORD_SIZE == 9 && RIBBON_MAX_RECORDS == 65535L ? 1 : -1];
typedef char stl_size[RIBBON_STL_SIZE(0) == 84 && RIBBON_STL_SIZE(72 + 72) == 7284 ? 1 : -1];

size_t residues_of(const void *job);
size_t residues_of(const void *job) { return RIBBON_RESIDUES(job); }

void every_call(const uint8_t *job, float *floats, uint32_t *words, uint8_t *out, size_t n);
void every_call(const uint8_t *job, float *floats, uint32_t *words, uint8_t *out, size_t n) {
    uint32_t answer[9];
    size_t start, shares[24] = {0};
    ribbon_build(job, n, floats, n, floats, n, words, n, words, n, words, n, floats, n, words, n, floats, n, answer);
    ribbon_plan(job, n, n, words, n, floats, n, answer);
    ribbon_build_share(job, n, job, n, shares, floats, n, floats, n, words, n, words, n, words, n, floats, n, words, n, floats, n, answer);
    ribbon_plan_records(job, n, job, n, n, words, n, floats, n, answer);
    ribbon_read_pdb(job, n, out, n, answer);
    ribbon_tube(words, n, words, n, n, &start);
    ribbon_write_stl(floats, n, floats, n, words, n, words, n, words, n, floats, n, n, n, n, out, n, answer);
    ribbon_read_stl(job, n, floats, n, floats, n, answer);
}
