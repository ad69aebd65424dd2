/* Builds the job on standard input: asks for the plan, allocates exactly what it needs, builds, and prints each tube and the first vertex.
 * Round every buffer stand words that no call may touch. Build and run: examples/run-c. */
#include "ribbon.h"
#include <errno.h>
#include <math.h>
#include <stdio.h>
#include <stdlib.h>
#include <string.h>

enum { GUARD = 16 };
static const uint32_t canary = 0xC0FFEE00;

static int wrong(const char *what) {
    fprintf(stderr, "ribbon: %s\n", what);
    return 1;
}

/* n places of four bytes, with guards on both sides */
static void *lend(size_t n) {
    uint32_t *p = malloc((n + 2 * GUARD) * 4);
    if (!p) exit(wrong("no memory"));
    for (size_t i = 0; i < n + 2 * GUARD; i++) p[i] = canary + i % 251;
    return p + GUARD;
}

static int untouched(const void *lent, size_t n) {
    const uint32_t *p = (const uint32_t *)lent - GUARD;
    for (size_t i = 0; i < GUARD; i++)
        if (p[i] != canary + i % 251 || p[n + GUARD + i] != canary + (n + GUARD + i) % 251) return 0;
    return 1;
}

/* the whole of standard input, or exit status 1 */
static size_t input(uint8_t *to, size_t room) {
    size_t n = fread(to, 1, room, stdin);
    int more = n == room && getchar() != EOF;
    if (ferror(stdin)) fprintf(stderr, "ribbon: the job cannot be read: %s\n", strerror(errno));
    else if (more) fprintf(stderr, "ribbon: the job is longer than %zu bytes\n", room);
    else return n;
    exit(1);
}

/* the status, where standard output was written whole */
static int end(int status) {
    if (!fflush(stdout) && !ferror(stdout)) return status;
    fprintf(stderr, "ribbon: standard output cannot be written: %s\n", strerror(errno));
    return 1;
}

/* whether a box holds these vertices */
static int holds(const float *box, const float *vertices, size_t count) {
    for (size_t i = 0; i < 3 * count; i++)
        if (vertices[i] < box[i % 3] || vertices[i] > box[3 + i % 3]) return 0;
    return 1;
}

/* whether a normal can be shaded by: three finite numbers, and not all of them 0 */
static int lit(const float *n) {
    return isfinite(n[0]) && isfinite(n[1]) && isfinite(n[2]) && (n[0] != 0 || n[1] != 0 || n[2] != 0);
}

int main(void) {
    static uint8_t job[65536];
    size_t len = input(job, sizeof job), residues = len < 13 ? 0 : RIBBON_RESIDUES(job);
    size_t nw = RIBBON_SCRATCH_WORDS(residues), nf = RIBBON_SCRATCH_FLOATS(residues);
    uint32_t *words = lend(nw), plan[9], answer[4];
    float *floats = lend(nf);
    ribbon_plan(job, len, 0, words, nw, floats, nf, plan);
    if (plan[0]) {
        printf("refused %u\n", plan[0]);
        return end(1);
    }
    size_t k = plan[1], v = plan[2], t = plan[3];
    float *positions = lend(3 * v), *normals = lend(3 * v), *boxes = lend(6 * k);
    uint32_t *tags = lend(v), *triangles = lend(3 * t), *tubes = lend(5 * k);
    /* one place too few is refused, and changes nothing */
    ribbon_build(job, len, positions, 3 * v - (v > 0), normals, 3 * v, tags, v, triangles, 3 * t, tubes, 5 * k, boxes, 6 * k, words, nw, floats, nf, answer);
    if (v > 0 && (answer[0] != RIBBON_NO_ROOM || answer[1] != k || answer[2] != v || answer[3] != t || tags[0] != canary + GUARD))
        return wrong("one place too few was not refused as it should be");
    ribbon_build(job, len, positions, 3 * v, normals, 3 * v, tags, v, triangles, 3 * t, tubes, 5 * k, boxes, 6 * k, words, nw, floats, nf, answer);
    if (answer[0] || answer[1] != k || answer[2] != v || answer[3] != t) return wrong("the mesh has not the plan's counts");
    if (!(untouched(positions, 3 * v) && untouched(normals, 3 * v) && untouched(tags, v) && untouched(triangles, 3 * t) && untouched(tubes, 5 * k)
          && untouched(boxes, 6 * k) && untouched(words, nw) && untouched(floats, nf)))
        return wrong("a place outside a buffer was touched");
    printf("tubes %zu vertices %zu triangles %zu\n", k, v, t);
    for (size_t i = 0; i < k; i++) {
        size_t start, n = ribbon_tube(tubes, 5 * k, triangles, 3 * t, i, &start);
        const uint32_t *tube = tubes + 5 * i;
        const float *box = boxes + 6 * i;
        if (!holds(box, positions + 3 * tube[3], 64 * tube[2] - 54)) return wrong("a vertex is outside its tube's box");
        printf("tube %zu: %zu corners from place %zu, residue %u on, box %g %g %g to %g %g %g\n", i, n, start, tube[1], box[0], box[1], box[2], box[3], box[4],
               box[5]);
        /* the centre of the start cap is the ninth vertex of a tube, that of the end cap the last */
        const float *first = normals + 3 * (tube[3] + 8), *last = normals + 3 * (tube[3] + 64 * tube[2] - 55);
        if (!lit(first) || !lit(last)) return wrong("a cap would shade black");
        printf("its caps: normals %g %g %g and %g %g %g\n", first[0], first[1], first[2], last[0], last[1], last[2]);
    }
    if (v) printf("vertex 0 at %g %g %g, normal %g %g %g\n", positions[0], positions[1], positions[2], normals[0], normals[1], normals[2]);
    return end(0);
}
