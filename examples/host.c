/* A print service's host: host FILE.pdb [VERTICES]
 * reads the file, asks for its job's size, makes the job, asks for the plan, lends room for VERTICES vertices, or for as many as the plan says, and builds.
 * It prints the mesh's counts, or the refusal and what it means. Round every lent buffer stand guards, and after each call every place that it may not touch is
 * compared with what it was. All that it knows of the library stands in ribbon.h. Build and run: examples/run-c.
 * Exit status: 0 a mesh, 1 a refusal, or a file that cannot be read, 2 wrong usage, 3 a place was touched that may not be. */
#include "ribbon.h"
#include <errno.h>
#include <stdio.h>
#include <stdlib.h>
#include <string.h>

enum { GUARD = 64 };

static void stop(const char *what, const char *why) {
    fprintf(stderr, "host: %s: %s\n", what, why);
    exit(1);
}

/* all bytes of a file, of any size: a file that is read in part is not read */
static uint8_t *read_file(const char *path, size_t *size) {
    FILE *f = fopen(path, "rb");
    if (!f) stop(path, strerror(errno));
    uint8_t *at = NULL;
    size_t room = 0, n = 0, got;
    do {
        if (n == room) {
            room = room ? 2 * room : 65536;
            at = realloc(at, room);
            if (!at) stop(path, "no memory for so long a file");
        }
        got = fread(at + n, 1, room - n, f);
        n += got;
    } while (got);
    if (ferror(f)) stop(path, strerror(errno));
    fclose(f);
    *size = n;
    return at;
}

/* a lent buffer: `size` bytes, with guards on both sides */
struct lent {
    const char *name;
    uint8_t *at;
    size_t size;
};

/* what a lent byte holds before a call, counted from the first guard: as floats these are NaNs, each with bits of its own */
static uint8_t before(size_t i) {
    size_t place = i / 4;
    return (uint8_t)(i % 4 == 0 ? place : i % 4 == 1 ? place >> 8 : i % 4 == 2 ? 0xA0 | (place >> 16 & 0x1F) : 0x7F);
}

static struct lent lend(const char *name, size_t places, size_t width) {
    struct lent b = {name, malloc(places * width + 2 * GUARD), places * width};
    if (!b.at) stop(name, "no memory for this buffer");
    for (size_t i = 0; i < b.size + 2 * GUARD; i++) b.at[i] = before(i);
    b.at += GUARD;
    return b;
}

/* the guards, and the bytes from `from` on, have to be as they were lent */
static void keep(struct lent b, size_t from) {
    for (size_t i = 0; i < b.size + 2 * GUARD; i++) {
        if (i >= GUARD && i < GUARD + from) continue;
        if (b.at[(ptrdiff_t)i - GUARD] == before(i)) continue;
        fprintf(stderr, "host: %s: a place was touched, byte %td of %zu\n", b.name, (ptrdiff_t)i - GUARD, b.size);
        exit(3);
    }
}

/* standard output has to have been written whole */
static int end(int status) {
    if (fflush(stdout) || ferror(stdout)) stop("standard output", strerror(errno));
    return status;
}

static const char *meaning(uint32_t number) {
    switch (number) {
    case RIBBON_TOO_MANY_VERTICES: return "the mesh would have more than 1048576 vertices";
    case RIBBON_SHORT_LINE: return "the line of that number ends before its last column: 54 for ATOM, 38 for HELIX and SHEET";
    case RIBBON_BAD_NUMBER: return "a serial, a residue number or a coordinate in the line of that number is not right";
    case RIBBON_ABSENT_RESIDUE: return "the helix or strand in the line of that number names a residue that no ATOM line has";
    case RIBBON_PAST_LIMITS: return "a job has at most 255 chains, 16384 residues, 65535 segments and 65535 atoms";
    default: return "ribbon.h says what that number means; it should not be met here";
    }
}

static int refused(const uint32_t *answer) {
    printf("refused %u %u\n%s\n", answer[0], answer[1], meaning(answer[0]));
    return end(1);
}

/* a whole number up to RIBBON_MAX_VERTICES, and nothing else */
static int is_number(const char *s, size_t *n) {
    *n = 0;
    for (; *s >= '0' && *s <= '9' && *n <= RIBBON_MAX_VERTICES; s++) *n = 10 * *n + (size_t)(*s - '0');
    return !*s && *n <= RIBBON_MAX_VERTICES;
}

int main(int argc, char **argv) {
    size_t size, vertices = 0;
    if (argc < 2 || argc > 3 || (argc == 3 && !(*argv[2] && is_number(argv[2], &vertices)))) {
        fprintf(stderr, "usage: host FILE.pdb [VERTICES]   (VERTICES is 0 to %d)\n", RIBBON_MAX_VERTICES);
        return 2;
    }
    uint8_t *file = read_file(argv[1], &size);
    uint32_t answer[4], plan[9];

    /* the job's size, for no room at all, and then the job */
    ribbon_read_pdb(file, size, NULL, 0, answer);
    if (answer[0] != RIBBON_NO_JOB_ROOM) return refused(answer);
    struct lent job = lend("job", answer[1], 1);
    ribbon_read_pdb(file, size, job.at, job.size, answer);
    keep(job, answer[0] ? 0 : answer[1]);
    if (answer[0]) return refused(answer);

    /* what the mesh will hold */
    size_t r = RIBBON_RESIDUES(job.at), nw = RIBBON_SCRATCH_WORDS(r), nf = RIBBON_SCRATCH_FLOATS(r);
    struct lent words = lend("scratch words", nw, 4), floats = lend("scratch floats", nf, 4);
    ribbon_plan(job.at, job.size, 0, (uint32_t *)words.at, nw, (float *)floats.at, nf, plan);
    keep(words, 4 * nw);
    keep(floats, 4 * nf);
    if (plan[0]) return refused(plan);
    size_t k = plan[1], v = plan[2], t = plan[3], n = argc == 3 ? vertices : v;

    /* the mesh, where n vertices are enough */
    struct lent positions = lend("positions", 3 * n, 4), normals = lend("normals", 3 * n, 4), tags = lend("tags", n, 4);
    struct lent triangles = lend("triangles", 3 * t, 4), tubes = lend("tubes", 5 * k, 4), boxes = lend("boxes", 6 * k, 4);
    ribbon_build(job.at, job.size, (float *)positions.at, 3 * n, (float *)normals.at, 3 * n, (uint32_t *)tags.at, n, (uint32_t *)triangles.at, 3 * t,
                 (uint32_t *)tubes.at, 5 * k, (float *)boxes.at, 6 * k, (uint32_t *)words.at, nw, (float *)floats.at, nf, answer);
    int built = !answer[0];
    keep(positions, built ? 12 * v : 0);
    keep(normals, built ? 12 * v : 0);
    keep(tags, built ? 4 * v : 0);
    keep(triangles, built ? 12 * t : 0);
    keep(tubes, built ? 20 * k : 0);
    keep(boxes, built ? 24 * k : 0);
    keep(words, 4 * nw);
    keep(floats, 4 * nf);
    if (answer[0] == RIBBON_NO_ROOM) {
        printf("refused %u %u %u %u\n", answer[0], answer[1], answer[2], answer[3]);
        printf("%u tubes, %u vertices and %u triangles are needed; room for %zu vertices was lent, and no buffer was touched\n",
               answer[1], answer[2], answer[3], n);
        return end(1);
    }
    if (!built) return refused(answer);
    printf("tubes %u vertices %u triangles %u\n", answer[1], answer[2], answer[3]);
    return end(0);
}
