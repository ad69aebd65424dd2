/* Writes a model as a POV-Ray scene: scene MODEL.stl <JOB     (examples/draw runs it)
 * MODEL.stl is what ./ribbon made of a PDB file at one millimetre to the angstrom, and its facets are what is drawn. Of the job on standard input, that of the
 * same file, it takes which facets are a coil's, a helix's or a strand's, which no STL file says.
 * Where there is no scene, standard error says why, and the exit status is 1; 2 for wrong usage. */
#include "ribbon.h"
#include <errno.h>
#include <stdio.h>
#include <stdlib.h>
#include <string.h>

static void stop(const char *what, const char *why) {
    fprintf(stderr, "scene: %s%s\n", what, why);
    exit(1);
}

static void *lend(size_t n) {
    void *p = malloc(4 * n + 4);
    if (!p) stop("no memory for the mesh", "");
    return p;
}

/* the whole of standard input */
static size_t input(uint8_t *to, size_t room) {
    size_t n = fread(to, 1, room, stdin);
    int more = n == room && getchar() != EOF;
    if (ferror(stdin)) stop("the job cannot be read: ", strerror(errno));
    if (more) stop("the input is longer than any job", "");
    return n;
}

/* the corners of a file of t facets */
static float *facets(const char *path, size_t t) {
    size_t size = RIBBON_STL_SIZE(t), n = 0;
    uint8_t *bytes = lend(size / 4 + 1); /* a byte more than the file has, so that a longer one shows */
    FILE *f = fopen(path, "rb");
    if (f) n = fread(bytes, 1, size + 1, f);
    if (!f || ferror(f)) stop("the model cannot be read: ", strerror(errno));
    fclose(f);
    uint32_t answer[4];
    float *corners = lend(9 * t), *normals = lend(3 * t);
    ribbon_read_stl(bytes, n, corners, 9 * t, normals, 3 * t, answer);
    if (answer[0] || answer[1] != t) stop("the model is not the STL file of this job: ", path);
    free(normals); /* they are flat: smooth ones are made below */
    free(bytes);
    return corners;
}

static void vectors(const char *name, const float *at, size_t n) {
    printf("%s { %zu", name, n);
    for (size_t i = 0; i < n; i++) printf(",\n<%g, %g, %g>", at[3 * i], at[3 * i + 1], at[3 * i + 2]);
    puts(" }");
}

static int by_place(const void *a, const void *b) { return memcmp(*(float *const *)a, *(float *const *)b, 12); }

/* adds a facet's cross to the normal of each of its corners. Corners run clockwise seen from outside, so the cross is taken the other way round. */
static void lean(const float *corner, const size_t *vertex, float *normals) {
    float u[3], w[3];
    for (int i = 0; i < 3; i++) u[i] = corner[6 + i] - corner[i], w[i] = corner[3 + i] - corner[i];
    for (int i = 0; i < 3; i++) {
        float cross = u[(i + 1) % 3] * w[(i + 2) % 3] - u[(i + 2) % 3] * w[(i + 1) % 3];
        for (int c = 0; c < 3; c++) normals[3 * vertex[c] + i] += cross;
    }
}

/* a tube of t facets. An STL file has flat normals alone, and a tube drawn with them shows its facets: corners at one place are made one vertex, whose normal
 * is the mean over its facets by their areas. */
static void mesh(const float *corners, size_t t, uint32_t kind) {
    static const char *colours[] = {"<0.55, 0.60, 0.65>", "<0.80, 0.25, 0.30>", "<0.90, 0.70, 0.20>"}; /* coil, helix, sheet */
    const float **sorted = malloc(3 * t * sizeof *sorted);
    size_t *vertex = malloc(3 * t * sizeof *vertex), count = 0;
    float *positions = lend(9 * t), *normals = lend(9 * t);
    if (!sorted || !vertex) stop("no memory for the mesh", "");
    for (size_t i = 0; i < 3 * t; i++) sorted[i] = corners + 3 * i;
    qsort(sorted, 3 * t, sizeof *sorted, by_place);
    for (size_t i = 0; i < 3 * t; i++) {
        if (!i || by_place(sorted + i - 1, sorted + i)) memcpy(positions + 3 * count++, sorted[i], 12);
        vertex[(sorted[i] - corners) / 3] = count - 1;
    }
    memset(normals, 0, 12 * count);
    for (size_t i = 0; i < t; i++) lean(corners + 9 * i, vertex + 3 * i, normals);
    puts("mesh2 {");
    vectors("vertex_vectors", positions, count);
    vectors("normal_vectors", normals, count);
    printf("face_indices { %zu", t);
    for (size_t i = 0; i < 3 * t; i += 3) printf(",\n<%zu, %zu, %zu>", vertex[i], vertex[i + 1], vertex[i + 2]);
    printf(" }\npigment { color rgb %s } finish { phong 0.5 ambient 0.25 } }\n", colours[kind]);
    free(sorted), free(vertex), free(positions), free(normals);
}

int main(int argc, char **argv) {
    static uint8_t job[RIBBON_MAX_JOB];
    size_t len = input(job, sizeof job), residues = len < 13 ? 0 : RIBBON_RESIDUES(job);
    size_t nw = RIBBON_SCRATCH_WORDS(residues), nf = RIBBON_SCRATCH_FLOATS(residues);
    uint32_t *words = lend(nw), plan[9];
    float *floats = lend(nf), low[3] = {1e9, 1e9, 1e9}, high[3] = {-1e9, -1e9, -1e9};
    ribbon_plan(job, len, 0, words, nw, floats, nf, plan);
    if (plan[0]) return fprintf(stderr, "scene: refused %u %u\n", plan[0], plan[1]), 1;
    if (argc != 2) return fputs("usage: scene MODEL.stl <JOB\n", stderr), 2;
    size_t k = plan[1], t = plan[3];
    if (!k) stop("the mesh is empty: there is nothing to draw", "");
    const float *corners = facets(argv[1], t);
    for (size_t i = 0; i < 9 * t; i++) {
        if (corners[i] < low[i % 3]) low[i % 3] = corners[i];
        if (corners[i] > high[i % 3]) high[i % 3] = corners[i];
    }
    float x = (low[0] + high[0]) / 2, y = (low[1] + high[1]) / 2, z = (low[2] + high[2]) / 2, width = high[0] - low[0], height = high[1] - low[1];
    float wide = (width * 3 > height * 4 ? width : height * 4 / 3) + 8;
    puts("#version 3.7;\nglobal_settings { assumed_gamma 1 }\nbackground { color rgb 1 }");
    printf("camera { orthographic location <%g, %g, %g> look_at <%g, %g, %g> right %g*x up %g*y }\n", x, y, low[2] - 100, x, y, z, wide, wide * 3 / 4);
    printf("light_source { <%g, %g, %g> color rgb 1 parallel point_at <%g, %g, %g> }\n", x - 60, y + 90, low[2] - 120, x, y, z);
    for (size_t i = 0; i < k; i++) {
        ribbon_plan(job, len, i, words, nw, floats, nf, plan); /* of tube i: plan[4] its kind, plan[6] its residues, plan[8] its first facet */
        mesh(corners + 9 * (size_t)plan[8], 128 * (size_t)plan[6] - 112, plan[4]);
    }
    if (fflush(stdout) || ferror(stdout)) stop("the scene cannot be written: ", strerror(errno));
    return 0;
}
