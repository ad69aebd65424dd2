/* A print shop's file: stl FILE.pdb [OUT.stl]
 * reads the PDB file, builds its mesh and writes it as binary STL to OUT.stl, or to standard output where no OUT.stl is named. Before a byte goes out it lists
 * the STL file by ribbon_read_stl and compares every float with the mesh, bit for bit, and it shows the refusals that a host may meet here. Round every lent
 * buffer stand guards, and after each call every place that it may not touch is compared with what it was, the mesh too, which is only read.
 * OUT.stl is there whole or not at all: it is written beside, as OUT.stl.PROCESS.part, and renamed when it is on the disk. Build and run: examples/run-c.
 * Exit status: 0 the file was written, 1 a refusal, nothing to print, or a file that cannot be read or written, 2 wrong usage, 3 a promise was broken. */
#define _POSIX_C_SOURCE 200809L
#include "ribbon.h"
#include <errno.h>
#include <math.h>
#include <stdio.h>
#include <stdlib.h>
#include <string.h>
#include <sys/stat.h>
#include <unistd.h>

enum { GUARD = 64 };

static FILE *said; /* where words go: standard output, or standard error where the file goes to standard output */

static void stop(const char *what, const char *why) {
    fprintf(stderr, "stl: %s: %s\n", what, why);
    exit(1);
}

/* all bytes of a file, of any size: a file that is read in part is not read */
static uint8_t *read_file(const char *path, size_t *size) {
    FILE *f = fopen(path, "rb");
    if (!f) stop(path, strerror(errno));
    uint8_t *at = NULL;
    size_t room = 0, n = 0, got;
    do {
        if (n == room) {
            room = room ? 2 * room : 65536;
            at = realloc(at, room);
            if (!at) stop(path, "no memory for so long a file");
        }
        got = fread(at + n, 1, room - n, f);
        n += got;
    } while (got);
    if (ferror(f)) stop(path, strerror(errno));
    fclose(f);
    *size = n;
    return at;
}

/* a lent buffer: `size` bytes, with guards on both sides */
struct lent {
    const char *name;
    uint8_t *at;
    size_t size;
};

/* what a lent byte holds before a call, counted from the first guard: as floats these are NaNs, each with bits of its own */
static uint8_t before(size_t i) {
    size_t place = i / 4;
    return (uint8_t)(i % 4 == 0 ? place : i % 4 == 1 ? place >> 8 : i % 4 == 2 ? 0xA0 | (place >> 16 & 0x1F) : 0x7F);
}

static struct lent lend(const char *name, size_t places, size_t width) {
    struct lent b = {name, malloc(places * width + 2 * GUARD), places * width};
    if (!b.at) stop(name, "no memory for this buffer");
    for (size_t i = 0; i < b.size + 2 * GUARD; i++) b.at[i] = before(i);
    b.at += GUARD;
    return b;
}

/* the guards, and the bytes from `from` on, have to be as they were lent */
static void keep(struct lent b, size_t from) {
    for (size_t i = 0; i < b.size + 2 * GUARD; i++) {
        if (i >= GUARD && i < GUARD + from) continue;
        if (b.at[(ptrdiff_t)i - GUARD] == before(i)) continue;
        fprintf(stderr, "stl: %s: a place was touched, byte %td of %zu\n", b.name, (ptrdiff_t)i - GUARD, b.size);
        exit(3);
    }
}

static const char *meaning(uint32_t number) {
    switch (number) {
    case RIBBON_TOO_MANY_VERTICES: return "the mesh would have more than 1048576 vertices";
    case RIBBON_SHORT_LINE: return "the line of that number ends before its last column: 54 for ATOM, 38 for HELIX and SHEET";
    case RIBBON_BAD_NUMBER: return "a serial, a residue number or a coordinate in the line of that number is not right";
    case RIBBON_ABSENT_RESIDUE: return "the helix or strand in the line of that number names a residue that no ATOM line has";
    case RIBBON_PAST_LIMITS: return "a job has at most 255 chains, 16384 residues, 65535 segments and 65535 atoms";
    default: return "ribbon.h says what that number means; it should not be met here";
    }
}

static void refused(const uint32_t *answer) {
    fprintf(stderr, "stl: refused %u %u: %s\n", answer[0], answer[1], meaning(answer[0]));
    exit(1);
}

static struct lent job_of(const char *path) {
    size_t size;
    uint8_t *file = read_file(path, &size);
    uint32_t answer[4];
    ribbon_read_pdb(file, size, NULL, 0, answer);
    if (answer[0] != RIBBON_NO_JOB_ROOM) refused(answer);
    struct lent job = lend("job", answer[1], 1);
    ribbon_read_pdb(file, size, job.at, job.size, answer);
    keep(job, answer[0] ? 0 : answer[1]);
    if (answer[0]) refused(answer);
    free(file);
    return job;
}

struct mesh {
    struct lent positions, normals, tags, triangles, tubes, boxes;
    size_t k, v, t;
};

/* room for so many tubes, vertices and triangles */
static struct mesh room_for(size_t k, size_t v, size_t t) {
    struct mesh m = {lend("positions", 3 * v, 4), lend("normals", 3 * v, 4), lend("tags", v, 4), lend("triangles", 3 * t, 4), lend("tubes", 5 * k, 4),
                     lend("boxes", 6 * k, 4), k, v, t};
    return m;
}

static struct mesh mesh_of(struct lent job) {
    size_t r = RIBBON_RESIDUES(job.at), nw = RIBBON_SCRATCH_WORDS(r), nf = RIBBON_SCRATCH_FLOATS(r);
    struct lent words = lend("scratch words", nw, 4), floats = lend("scratch floats", nf, 4);
    uint32_t answer[9];
    ribbon_plan(job.at, job.size, 0, (uint32_t *)words.at, nw, (float *)floats.at, nf, answer);
    keep(words, words.size), keep(floats, floats.size);
    if (answer[0]) refused(answer);
    struct mesh m = room_for(answer[1], answer[2], answer[3]);
    ribbon_build(job.at, job.size, (float *)m.positions.at, 3 * m.v, (float *)m.normals.at, 3 * m.v, (uint32_t *)m.tags.at, m.v,
                 (uint32_t *)m.triangles.at, 3 * m.t, (uint32_t *)m.tubes.at, 5 * m.k, (float *)m.boxes.at, 6 * m.k, (uint32_t *)words.at, nw,
                 (float *)floats.at, nf, answer);
    keep(words, words.size), keep(floats, floats.size), keep(m.positions, m.positions.size), keep(m.normals, m.normals.size);
    keep(m.tags, m.tags.size), keep(m.triangles, m.triangles.size), keep(m.tubes, m.tubes.size), keep(m.boxes, m.boxes.size);
    if (answer[0]) refused(answer);
    return m;
}

/* FNV-1a over a buffer and its guards: another number as soon as one byte is another, and of several almost surely */
static uint64_t sum_over(uint64_t sum, struct lent b) {
    for (size_t i = 0; i < b.size + 2 * GUARD; i++) sum = (sum ^ b.at[(ptrdiff_t)i - GUARD]) * 0x100000001B3u;
    return sum;
}

static uint64_t sum_of(const struct mesh *m) {
    uint64_t sum = sum_over(sum_over(sum_over(0xCBF29CE484222325u, m->positions), m->normals), m->tags);
    return sum_over(sum_over(sum_over(sum, m->triangles), m->tubes), m->boxes);
}

static void unchanged(uint64_t before, uint64_t after, const char *what) {
    if (before == after) return;
    fprintf(stderr, "stl: %s was changed, which is only read\n", what);
    exit(3);
}

/* an answer has to be this one; a refusal is shown */
static void expect(const uint32_t *answer, uint32_t number, size_t value, const char *when) {
    if (answer[0] != number || answer[1] != value || answer[2] || answer[3]) {
        fprintf(stderr, "stl: the answer is %u %u %u %u, and not %u %zu 0 0: %s\n", answer[0], answer[1], answer[2], answer[3], number, value, when);
        exit(3);
    }
    if (number) fprintf(said, "refused %u %zu: %s\n", number, value, when);
}

static void write_into(uint8_t *stl, size_t room, const struct mesh *m, uint32_t *answer) {
    ribbon_write_stl((float *)m->positions.at, 3 * m->v, (float *)m->normals.at, 3 * m->v, (uint32_t *)m->tags.at, m->v, (uint32_t *)m->triangles.at, 3 * m->t,
                     (uint32_t *)m->tubes.at, 5 * m->k, (float *)m->boxes.at, 6 * m->k, m->k, m->v, m->t, stl, room, answer);
}

/* the file of a mesh, after a refusal of each kind */
static struct lent stl_of(const struct mesh *m) {
    struct lent stl = lend("the STL file", RIBBON_STL_SIZE(m->t), 1);
    uint32_t answer[4], *corner = (uint32_t *)m->triangles.at, own = *corner;
    uint64_t sum = sum_of(m);
    write_into(stl.at, stl.size - 1, m, answer);
    keep(stl, 0);
    expect(answer, RIBBON_NO_STL_ROOM, stl.size, "one byte less was lent, and so many are needed");
    *corner = 64 * ((uint32_t *)m->tubes.at)[2] - 54; /* as many vertices has tube 0: it is the next tube's first, or none */
    write_into(stl.at, stl.size, m, answer);
    *corner = own;
    keep(stl, 0);
    expect(answer, RIBBON_INCONSISTENT, 0, "a corner of tube 0 was made a vertex that tube 0 has not");
    write_into(stl.at, stl.size, m, answer);
    expect(answer, 0, stl.size, "the mesh is as it was built, and there is room");
    keep(stl, stl.size);
    unchanged(sum, sum_of(m), "the mesh");
    return stl;
}

static uint32_t bits(float x) {
    uint32_t b;
    memcpy(&b, &x, 4);
    return x != x ? 0x7FC00000u : b;
}

static int same(const float *a, const float *b) { return bits(a[0]) == bits(b[0]) && bits(a[1]) == bits(b[1]) && bits(a[2]) == bits(b[2]); }

/* the cross of the second corner less the first and the third less the first, times 1 / its length; where that is 0, zeros */
static void normal_of(const float *a, const float *b, const float *c, float *n) {
    float u[3] = {b[0] - a[0], b[1] - a[1], b[2] - a[2]}, w[3] = {c[0] - a[0], c[1] - a[1], c[2] - a[2]};
    float x = u[1] * w[2] - u[2] * w[1], y = u[2] * w[0] - u[0] * w[2], z = u[0] * w[1] - u[1] * w[0];
    float length = sqrtf(x * x + y * y + z * z), by = 1 / length;
    n[0] = length == 0 ? 0 : x * by, n[1] = length == 0 ? 0 : y * by, n[2] = length == 0 ? 0 : z * by;
}

/* the listed floats have to be those of the mesh's triangles, in order */
static void compare(const struct mesh *m, const float *corners, const float *normals) {
    const uint32_t *triangle = (uint32_t *)m->triangles.at;
    const float *at = (float *)m->positions.at;
    for (size_t i = 0; i < m->t; i++, triangle += 3, corners += 9, normals += 3) {
        const float *a = at + 3 * triangle[0], *b = at + 3 * triangle[1], *c = at + 3 * triangle[2];
        float normal[3];
        normal_of(a, b, c, normal);
        if (same(corners, a) && same(corners + 3, b) && same(corners + 6, c) && same(normals, normal)) continue;
        fprintf(stderr, "stl: facet %zu of the file is not triangle %zu of the mesh\n", i, i);
        exit(3);
    }
}

/* lists the file, after a refusal of each kind, and compares */
static void read_back(const struct mesh *m, struct lent stl) {
    struct lent corners = lend("corners", 9 * m->t, 4), normals = lend("facet normals", 3 * m->t, 4);
    float *c = (float *)corners.at, *n = (float *)normals.at;
    uint32_t answer[4];
    uint64_t sum = sum_over(0, stl);
    ribbon_read_stl(stl.at, stl.size - 1, c, 9 * m->t, n, 3 * m->t, answer);
    expect(answer, RIBBON_NOT_STL, 0, "the file was cut by one byte");
    for (size_t i = 0; i < 2; i++) {
        keep(corners, 0), keep(normals, 0);
        ribbon_read_stl(stl.at, stl.size, c, 9 * m->t - !i, n, 3 * m->t - i, answer);
        expect(answer, RIBBON_NO_STL_ROOM, m->t, i ? "one float less was lent for normals" : "one float less was lent for corners");
    }
    keep(corners, 0), keep(normals, 0);
    ribbon_read_stl(stl.at, stl.size, c, 9 * m->t, n, 3 * m->t, answer);
    expect(answer, 0, m->t, "the file is whole, and there is room");
    keep(corners, corners.size), keep(normals, normals.size);
    compare(m, c, n);
    unchanged(sum, sum_over(0, stl), "the file");
}

/* a file of one facet by another program: whatever NaN it holds, the one of 7FC00000 is listed */
static void read_foreign(void) {
    uint8_t file[134] = {0};
    float corners[9], normals[3];
    uint32_t answer[4], nan = 0xFFC00001u, listed[2];
    memset(file, 'x', 80);
    file[80] = 1;
    for (int i = 0; i < 4; i++) file[84 + i] = file[128 + i] = (uint8_t)(nan >> 8 * i);
    ribbon_read_stl(file, sizeof file, corners, 9, normals, 3, answer);
    expect(answer, 0, 1, "a file of one facet");
    memcpy(listed, normals, 4), memcpy(listed + 1, corners + 8, 4);
    if (listed[0] == 0x7FC00000u && listed[1] == 0x7FC00000u) return;
    fprintf(stderr, "stl: FFC00001 was listed as %08X and %08X\n", listed[0], listed[1]);
    exit(3);
}

/* a short write, a full disk and a failed rename leave what was there before */
static void save(const char *path, struct lent stl) {
    struct stat there;
    char *part = malloc(strlen(path) + 32);
    if (!part) stop(path, "no memory");
    if (!lstat(path, &there) && !S_ISREG(there.st_mode)) stop(path, "something else than a file is there, and is not replaced");
    sprintf(part, "%s.%ld.part", path, (long)getpid());
    FILE *f = fopen(part, "wb");
    if (!f) stop(part, strerror(errno));
    int whole = fwrite(stl.at, 1, stl.size, f) == stl.size && !fflush(f) && !fsync(fileno(f)), why = errno;
    if (fclose(f) && whole) whole = 0, why = errno;
    if (whole && rename(part, path)) whole = 0, why = errno;
    if (!whole) {
        remove(part);
        stop(path, strerror(why));
    }
    free(part);
}

int main(int argc, char **argv) {
    if (argc < 2 || argc > 3) {
        fprintf(stderr, "usage: stl FILE.pdb [OUT.stl]   (standard output where OUT.stl is not named)\n");
        return 2;
    }
    said = argc == 3 ? stdout : stderr;
    struct mesh m = mesh_of(job_of(argv[1]));
    if (!m.t) stop(argv[1], "the mesh is empty: there is nothing to print");
    fprintf(said, "tubes %zu vertices %zu triangles %zu\n", m.k, m.v, m.t);
    struct lent stl = stl_of(&m);
    read_back(&m, stl);
    read_foreign();
    if (argc == 3) save(argv[2], stl);
    else if (fwrite(stl.at, 1, stl.size, stdout) != stl.size || fflush(stdout)) stop("standard output", strerror(errno));
    fprintf(said, "%zu bytes are written, and list the mesh bit for bit\n", stl.size);
    if (fflush(said) || ferror(said)) stop(argc == 3 ? "standard output" : "standard error", strerror(errno));
    return 0;
}
