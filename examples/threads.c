/* Reads, plans and builds the PDB file on standard input in eight threads at once, each on buffers of its own and with the stack that ribbon.h names: 700 KiB
 * to read, 32 KiB to plan and build. All must get the same job and the same mesh, bit for bit. Build and run: examples/run-c. */
#define _POSIX_C_SOURCE 200809L
#include "ribbon.h"
#include <errno.h>
#include <pthread.h>
#include <stdio.h>
#include <stdlib.h>
#include <string.h>

enum { THREADS = 8, READ_STACK = 700 * 1024, BUILD_STACK = 32 * 1024 };

static uint8_t file[1 << 20];
static size_t len, size, k, v, t;

/* what one thread works on */
struct work {
    uint8_t *job;
    uint32_t *words, *tags, *triangles, *tubes, read[4], plan[9], built[4];
    float *floats, *positions, *normals, *boxes;
};

static struct work works[THREADS];

static void stop(const char *what, const char *why) {
    fprintf(stderr, "threads: %s%s\n", what, why);
    exit(1);
}

static void *lend(size_t bytes) {
    void *p = calloc(bytes + 1, 1);
    if (!p) stop("no memory", "");
    return p;
}

static void *read_one(void *at) {
    struct work *w = at;
    ribbon_read_pdb(file, len, w->job, size, w->read);
    return NULL;
}

static void *build_one(void *at) {
    struct work *w = at;
    size_t r = RIBBON_RESIDUES(w->job), nw = RIBBON_SCRATCH_WORDS(r), nf = RIBBON_SCRATCH_FLOATS(r);
    ribbon_plan(w->job, size, 0, w->words, nw, w->floats, nf, w->plan);
    ribbon_build(w->job, size, w->positions, 3 * v, w->normals, 3 * v, w->tags, v, w->triangles, 3 * t, w->tubes, 5 * k, w->boxes, 6 * k,
                 w->words, nw, w->floats, nf, w->built);
    return NULL;
}

static void at_once(void *(*one)(void *), size_t stack) {
    pthread_attr_t attributes;
    pthread_t threads[THREADS];
    int e = pthread_attr_init(&attributes);
    if (!e) e = pthread_attr_setstacksize(&attributes, stack);
    for (int i = 0; i < THREADS && !e; i++) e = pthread_create(&threads[i], &attributes, one, &works[i]);
    for (int i = 0; i < THREADS && !e; i++) e = pthread_join(threads[i], NULL);
    if (e) stop("no such thread: ", strerror(e));
}

int main(void) {
    uint32_t answer[9];
    len = fread(file, 1, sizeof file, stdin);
    int more = len == sizeof file && getchar() != EOF;
    if (ferror(stdin)) stop("the file cannot be read: ", strerror(errno));
    if (more) stop("the file is too long for this example", "");
    ribbon_read_pdb(file, len, NULL, 0, answer);
    if (answer[0] != RIBBON_NO_JOB_ROOM) return fprintf(stderr, "threads: refused %u %u\n", answer[0], answer[1]), 1;
    size = answer[1];
    for (int i = 0; i < THREADS; i++) works[i].job = lend(size);
    at_once(read_one, READ_STACK);

    struct work *a = works;
    size_t r = RIBBON_RESIDUES(a->job), nw = RIBBON_SCRATCH_WORDS(r), nf = RIBBON_SCRATCH_FLOATS(r);
    for (int i = 0; i < THREADS; i++) {
        works[i].words = lend(4 * nw);
        works[i].floats = lend(4 * nf);
    }
    ribbon_plan(a->job, size, 0, a->words, nw, a->floats, nf, answer);
    if (answer[0]) return fprintf(stderr, "threads: refused %u %u\n", answer[0], answer[1]), 1;
    k = answer[1], v = answer[2], t = answer[3];
    for (struct work *w = works; w < works + THREADS; w++) {
        w->positions = lend(12 * v);
        w->normals = lend(12 * v);
        w->tags = lend(4 * v);
        w->triangles = lend(12 * t);
        w->tubes = lend(20 * k);
        w->boxes = lend(24 * k);
    }
    at_once(build_one, BUILD_STACK);

    for (struct work *w = works; w < works + THREADS; w++) {
        if (w->read[0] || w->read[1] != size || memcmp(w->job, a->job, size)) stop("a thread read another job", "");
        if (memcmp(w->plan, answer, sizeof answer)) stop("a thread got another plan", "");
        if (w->built[0] || memcmp(w->built, answer, sizeof w->built)) stop("a thread did not build", "");
        if (memcmp(w->positions, a->positions, 12 * v) || memcmp(w->normals, a->normals, 12 * v) || memcmp(w->tags, a->tags, 4 * v)
            || memcmp(w->triangles, a->triangles, 12 * t) || memcmp(w->tubes, a->tubes, 20 * k) || memcmp(w->boxes, a->boxes, 24 * k))
            stop("a thread built another mesh", "");
    }
    printf("%d threads built the same mesh: tubes %zu vertices %zu triangles %zu\n", THREADS, k, v, t);
    if (fflush(stdout) || ferror(stdout)) stop("standard output cannot be written: ", strerror(errno));
    return 0;
}
