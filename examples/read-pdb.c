/* Reads the PDB file on standard input: asks for the job's size, lends exactly that, reads, and prints the counts. Then the job's limits, on
 * files that are made here. Round the lent bytes stand others that no call may touch. Build and run: examples/run-c. */
#include "ribbon.h"
#include <errno.h>
#include <stdio.h>
#include <stdlib.h>
#include <string.h>

enum { GUARD = 16 };

static int wrong(const char *what) {
    fprintf(stderr, "read-pdb: %s\n", what);
    return 1;
}

static uint8_t canary(size_t i) { return (uint8_t)(i * 7 + 165); }

/* n bytes, with guards on both sides */
static uint8_t *lend(size_t n) {
    uint8_t *p = malloc(n + 2 * GUARD);
    if (!p) exit(wrong("no memory"));
    for (size_t i = 0; i < n + 2 * GUARD; i++) p[i] = canary(i);
    return p + GUARD;
}

/* whether the guards, and the bytes from place `from` on, are as they were lent */
static int untouched(const uint8_t *lent, size_t n, size_t from) {
    const uint8_t *p = lent - GUARD;
    for (size_t i = 0; i < n + 2 * GUARD; i++)
        if ((i < GUARD || i >= GUARD + from) && p[i] != canary(i)) return 0;
    return 1;
}

static int answers(const uint8_t *file, size_t len, uint32_t number, uint32_t value) {
    uint32_t answer[4];
    uint8_t *job = lend(RIBBON_MAX_JOB);
    ribbon_read_pdb(file, len, job, RIBBON_MAX_JOB, answer);
    int good = answer[0] == number && answer[1] == value && !answer[2] && !answer[3] && untouched(job, RIBBON_MAX_JOB, number ? 0 : value);
    if (!good) printf("answer %u %u, not %u %u\n", answer[0], answer[1], number, value);
    free(job - GUARD);
    return good;
}

/* `residues` atoms of one residue each, `more` atoms of the last residue, and `segments` strands over the first */
static int made(int residues, int more, int segments, uint32_t number, uint32_t value) {
    char *file = malloc(80 * ((size_t)residues + more + segments) + 1), *at = file;
    if (!file) exit(wrong("no memory"));
    for (int i = 0; i < segments; i++) at += sprintf(at, "SHEET    1   A 1 GLY A   0  GLY A   0 \n");
    for (int i = 0; i < residues + more; i++) {
        int r = i < residues ? i : residues - 1;
        at += sprintf(at, "ATOM  %5d  CA  GLY %c%4d       1.000   2.000  -3.000\n", i, 'A' + r / 9000, r % 9000);
    }
    int good = answers((const uint8_t *)file, (size_t)(at - file), number, value);
    free(file);
    return good;
}

/* the whole of standard input, or exit status 1 */
static size_t input(uint8_t *to, size_t room) {
    size_t n = fread(to, 1, room, stdin);
    int more = n == room && getchar() != EOF;
    if (ferror(stdin)) fprintf(stderr, "read-pdb: the file cannot be read: %s\n", strerror(errno));
    else if (more) fprintf(stderr, "read-pdb: the file is longer than %zu bytes\n", room);
    else return n;
    exit(1);
}

/* the status, where standard output was written whole */
static int end(int status) {
    if (!fflush(stdout) && !ferror(stdout)) return status;
    fprintf(stderr, "read-pdb: standard output cannot be written: %s\n", strerror(errno));
    return 1;
}

int main(void) {
    static uint8_t file[1 << 20];
    size_t len = input(file, sizeof file);
    uint32_t answer[4];
    ribbon_read_pdb(file, len, NULL, 0, answer);
    if (answer[0] != RIBBON_NO_JOB_ROOM) {
        printf("refused %u %u\n", answer[0], answer[1]);
        return end(1);
    }
    size_t size = answer[1];
    uint8_t *job = lend(size);
    /* one place too few is refused, and changes nothing */
    ribbon_read_pdb(file, len, job, size - 1, answer);
    if (answer[0] != RIBBON_NO_JOB_ROOM || answer[1] != size || !untouched(job, size, 0)) return wrong("one byte too few was not refused as it should be");
    ribbon_read_pdb(file, len, job, size, answer);
    if (answer[0] || answer[1] != size || !untouched(job, size, size)) return wrong("the job was not written as it should be");
    printf("chains %d residues %d segments %d atoms %d\n", job[6], (int)RIBBON_RESIDUES(job), job[9] * 256 + job[10], job[11] * 256 + job[12]);
    const char *short_line = "REMARK\nATOM  ", *absent = "HELIX    1   1 GLY A    1  GLY A    2  1\n";
    int good = answers((const uint8_t *)short_line, strlen(short_line), 12, 2) && answers((const uint8_t *)absent, strlen(absent), 14, 1)
        && answers(NULL, 0, 0, 13) && made(16384, 0, 0, 0, 13 + 2 + 33 * 16384) && made(16385, 0, 0, 15, 0)
        && made(1, 65534, 0, 0, 13 + 1 + 33 * 65535) && made(1, 65535, 0, 15, 0) && made(1, 0, 65535, 0, 13 + 1 + 9 * 65535 + 33)
        && made(1, 0, 65536, 15, 0);
    if (!good) return end(1);
    puts("the limits are as they should be");
    return end(0);
}
