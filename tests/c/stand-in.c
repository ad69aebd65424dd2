/* Stands in for the static libraries, so that the programs in C can be compiled, linked and run with no proof at hand (tests/c/run). It builds nothing: every
 * file and every job is refused, by 1.
 * Where the variable TOUCH is set it plays a library that breaks its promise, for examples/host.c to find out: any file is a job of two residues, the plan has
 * 74 vertices, and a build is refused by 11 and changes one byte all the same: in the output buffer of that number, 0 to 5, or right behind it where TOUCH ends
 * in '+', or right before it where it ends in '-'.
 * Where the variable STL is set it plays a library with one mesh, for examples/stl.c: any file is that job, and its mesh is 74 vertices at the origin and 144
 * triangles, each three times vertex 0. STL=right keeps every promise. STL=file, corners or normals changes a byte of that buffer in a call that is refused, or
 * behind or before it where '+' or '-' follows; STL=positions changes the mesh; STL=float writes a file with another float; STL=size answers a size that is not
 * the file's; STL=read changes the file that is listed; STL=nan lists a NaN as it stands in the file; STL=empty has a mesh of nothing.
 * Where the variable PARTIES is set it plays a library for two parties, for examples/parties.c: any file is that job with a helix, and every mesh is 74
 * vertices of zeros. PARTIES=right keeps every promise. PARTIES=gap, behind or other changes the place before the caller's share of the triangles, behind its
 * mesh or the first one of the other's; guard the one before that buffer; mesh writes another word; scratch leaves a word there; counts answers others; overlap
 * takes shares that overlap, leave those that leave a buffer, wrap those whose end wraps; touch refuses those that touch, empty those that are empty; late
 * clears the scratch under 20; size takes a job that has segments, cut records that are not whole.
 * Where the variable CAPS is set it plays a library with one mesh, for examples/ribbon.c: any job has 74 vertices at the origin. CAPS=right has normals at both
 * caps; start and end leave one of them zero, nan makes a NaN of one. */
#include "ribbon.h"
#include <math.h>
#include <stdlib.h>
#include <string.h>

uint32_t ribbon_root_bits(uint32_t);
uint32_t ribbon_narrow_bits(uint64_t);

static void say(uint32_t *answer, size_t n, uint32_t number, uint32_t a, uint32_t b, uint32_t c) {
    memset(answer, 0, 4 * n);
    answer[0] = number, answer[1] = a, answer[2] = b, answer[3] = c;
}

/* whether STL is this word, or begins with it where it ends in '+' or '-' */
static int plays(const char *word) {
    const char *stl = getenv("STL");
    return stl && !strncmp(stl, word, strlen(word)) && strspn(stl + strlen(word), "+-") == strlen(stl + strlen(word));
}

/* changes a byte in a buffer, behind it or before it, as the variable's end says */
static void touch_byte(const char *variable, void *at, size_t size) {
    uint8_t *buffer = at;
    buffer += strchr(variable, '+') ? (ptrdiff_t)size : strchr(variable, '-') ? -1 : (ptrdiff_t)(size / 2);
    *buffer ^= 1;
}

/* whether PARTIES is this word */
static int party(const char *word) { return getenv("PARTIES") && !strcmp(getenv("PARTIES"), word); }

void ribbon_build(const uint8_t *job, size_t job_len, float *positions, size_t positions_len, float *normals, size_t normals_len,
                  uint32_t *tags, size_t tags_len, uint32_t *triangles, size_t triangles_len, uint32_t *tubes, size_t tubes_len,
                  float *boxes, size_t boxes_len, uint32_t *words, size_t words_len, float *floats, size_t floats_len,
                  uint32_t answer[4]) {
    void *at[] = {positions, normals, tags, triangles, tubes, boxes};
    size_t sizes[] = {positions_len, normals_len, tags_len, triangles_len, tubes_len, boxes_len};
    const char *touch = getenv("TOUCH");
    (void)job, (void)job_len, (void)words, (void)words_len, (void)floats, (void)floats_len;
    if (getenv("STL") || getenv("PARTIES")) {
        for (int i = 0; i < 6; i++) memset(at[i], 0, 4 * sizes[i]);
        if (tubes_len) tubes[2] = 2;
        say(answer, 4, 0, (uint32_t)tubes_len / 5, (uint32_t)tags_len, (uint32_t)triangles_len / 3);
        return;
    }
    if (getenv("CAPS") && positions_len == 222) {
        const char *caps = getenv("CAPS");
        for (int i = 0; i < 6; i++) memset(at[i], 0, 4 * sizes[i]);
        tubes[2] = 2;
        normals[3 * 8] = strcmp(caps, "start") ? -1 : 0, normals[3 * 73] = !strcmp(caps, "end") ? 0 : !strcmp(caps, "nan") ? NAN : 1;
        say(answer, 4, 0, 1, 74, 144);
        return;
    }
    touch = touch ? touch : getenv("CAPS");
    say(answer, 4, touch ? RIBBON_NO_ROOM : RIBBON_BAD_LENGTH, touch ? 1 : 0, touch ? 74 : 0, touch ? 144 : 0);
    if (touch && *touch >= '0' && *touch <= '5') touch_byte(touch, at[*touch - '0'], 4 * sizes[*touch - '0']);
}

void ribbon_plan(const uint8_t *job, size_t job_len, size_t k, uint32_t *words, size_t words_len, float *floats, size_t floats_len,
                 uint32_t answer[9]) {
    (void)job, (void)job_len, (void)k, (void)words, (void)words_len, (void)floats, (void)floats_len;
    if (plays("empty")) say(answer, 9, 0, 0, 0, 0);
    else if (getenv("TOUCH") || getenv("STL") || getenv("CAPS")) say(answer, 9, 0, 1, 74, 144);
    else say(answer, 9, RIBBON_BAD_LENGTH, 0, 0, 0);
}

/* whether shares of n places, two numbers each, are bad */
static int bad_share(size_t n, const size_t *a, const size_t *b) {
    const size_t *both[] = {a, b};
    for (int i = 0; i < 2; i++) {
        size_t start = both[i][0], len = both[i][1];
        if (start + len < start ? !party("wrap") : start + len > n && !party("leave")) return 1;
        if (!len && party("empty")) return 1;
    }
    if (!a[1] || !b[1] || party("overlap")) return 0;
    return party("touch") ? a[0] <= b[0] + b[1] && b[0] <= a[0] + a[1] : a[0] < b[0] + b[1] && b[0] < a[0] + a[1];
}

void ribbon_build_share(const uint8_t *job, size_t job_len, const uint8_t *records, size_t records_len, const size_t shares[24],
                        float *positions, size_t positions_len, float *normals, size_t normals_len, uint32_t *tags, size_t tags_len,
                        uint32_t *triangles, size_t triangles_len, uint32_t *tubes, size_t tubes_len, float *boxes, size_t boxes_len,
                        uint32_t *words, size_t words_len, float *floats, size_t floats_len, uint32_t answer[4]) {
    uint32_t *at[] = {(uint32_t *)positions, (uint32_t *)normals, tags, triangles, tubes, (uint32_t *)boxes};
    size_t sizes[] = {positions_len, normals_len, tags_len, triangles_len, tubes_len, boxes_len}, needs[] = {222, 222, 74, 432, 5, 6};
    int bad = 0, room = 1;
    (void)job_len, (void)records;
    for (int i = 0; i < 6; i++) bad |= bad_share(sizes[i], shares + 2 * i, shares + 12 + 2 * i), room &= shares[2 * i + 1] >= needs[i];
    if (!getenv("PARTIES")) say(answer, 4, RIBBON_BAD_LENGTH, 0, 0, 0);
    else if ((job[10] && !party("size")) || (records_len % RIBBON_RECORD_SIZE && !party("cut"))) say(answer, 4, RIBBON_BAD_SIZE, 0, 0, 0);
    else if (bad) say(answer, 4, RIBBON_BAD_SHARES, 0, 0, 0);
    else say(answer, 4, room ? 0 : RIBBON_NO_ROOM, 1, 74, 144 + (uint32_t)party("counts"));
    if (!answer[0] || answer[0] == RIBBON_NO_ROOM || party("late")) memset(words, 0, 4 * words_len), memset(floats, 0, 4 * floats_len);
    if (answer[0]) return;
    for (int i = 0; i < 6; i++) memset(at[i] + shares[2 * i], 0, 4 * needs[i]);
    words[3] = party("scratch");
    tubes[shares[8] + 2] = 2;
    if (party("mesh")) triangles[shares[6] + 7] = 1;
    if (party("gap")) triangles[shares[6] - 1] ^= 1;
    if (party("behind")) triangles[shares[6] + needs[3]] ^= 1;
    if (party("other")) triangles[shares[18]] ^= 1;
    if (party("guard")) triangles[-1] ^= 1;
}

void ribbon_plan_records(const uint8_t *job, size_t job_len, const uint8_t *records, size_t records_len, size_t tube, uint32_t *words, size_t words_len,
                         float *floats, size_t floats_len, uint32_t answer[9]) {
    (void)job, (void)job_len, (void)records, (void)records_len, (void)tube, (void)words, (void)words_len, (void)floats, (void)floats_len;
    if (getenv("PARTIES")) say(answer, 9, 0, 1, 74, 144);
    else say(answer, 9, RIBBON_BAD_LENGTH, 0, 0, 0);
}

size_t ribbon_tube(const uint32_t *tubes, size_t tubes_len, const uint32_t *triangles, size_t triangles_len, size_t k, size_t *start) {
    (void)tubes, (void)tubes_len, (void)triangles, (void)triangles_len, (void)k;
    return *start = 0;
}

void ribbon_read_pdb(const uint8_t *file, size_t file_len, uint8_t *job_out, size_t job_out_len, uint32_t answer[4]) {
    static const uint8_t plain[80] = {0, 0, 0, 76, 1, 0, 1, 0, 2, 0, 0, 0, 2, 1};
    static const uint8_t helix[89] = {0, 0, 0, 85, 1, 0, 1, 0, 2, 0, 1, 0, 2, 1, 1, 0, 0, 0, 0, 0, 0, 0, 9};
    const uint8_t *job = getenv("PARTIES") ? helix : plain;
    uint32_t size = job == helix ? sizeof helix : sizeof plain;
    (void)file, (void)file_len;
    if (!getenv("TOUCH") && !getenv("STL") && !getenv("PARTIES")) {
        say(answer, 4, RIBBON_BAD_LENGTH, 0, 0, 0);
    } else if (job_out_len < size) {
        say(answer, 4, RIBBON_NO_JOB_ROOM, size, 0, 0);
    } else {
        memcpy(job_out, job, size);
        say(answer, 4, 0, size, 0, 0);
    }
}

void ribbon_write_stl(const float *positions, size_t positions_len, const float *normals, size_t normals_len, const uint32_t *tags, size_t tags_len,
                      const uint32_t *triangles, size_t triangles_len, const uint32_t *tubes, size_t tubes_len, const float *boxes, size_t boxes_len,
                      size_t k, size_t v, size_t t, uint8_t *stl, size_t stl_len, uint32_t answer[4]) {
    size_t size = RIBBON_STL_SIZE(144);
    (void)normals, (void)normals_len, (void)tags, (void)tags_len, (void)tubes, (void)tubes_len, (void)boxes, (void)boxes_len, (void)k;
    if (!getenv("STL") || v != 74 || t != 144 || triangles_len != 432 || triangles[0] >= v) say(answer, 4, RIBBON_INCONSISTENT, 0, 0, 0);
    else if (stl_len < size) say(answer, 4, RIBBON_NO_STL_ROOM, (uint32_t)size, 0, 0);
    else say(answer, 4, 0, (uint32_t)size - plays("size"), 0, 0);
    if (!answer[0]) {
        memset(stl, 0, size);
        stl[80] = 144, stl[500] = plays("float");
        if (plays("positions")) touch_byte("", (float *)(uintptr_t)positions, 4 * positions_len);
    } else if (plays("file")) {
        touch_byte(getenv("STL"), stl, stl_len);
    }
}

void ribbon_read_stl(const uint8_t *file, size_t file_len, float *corners, size_t corners_len, float *normals, size_t normals_len, uint32_t answer[4]) {
    if (getenv("STL") && file_len == RIBBON_STL_SIZE(1)) {
        uint32_t nan = plays("nan") ? 0xFFC00001u : 0x7FC00000u;
        memcpy(normals, &nan, 4), memcpy(corners + 8, &nan, 4);
        say(answer, 4, 0, 1, 0, 0);
        return;
    }
    if (!getenv("STL") || file_len != RIBBON_STL_SIZE(144)) say(answer, 4, RIBBON_NOT_STL, 0, 0, 0);
    else if (corners_len < 9 * 144 || normals_len < 3 * 144) say(answer, 4, RIBBON_NO_STL_ROOM, 144, 0, 0);
    else say(answer, 4, 0, 144, 0, 0);
    if (!answer[0]) {
        memset(normals, 0, 4 * 3 * 144);
        memset(corners, 0, 4 * 9 * 144);
        corners[70] = file[500];
        if (plays("read")) touch_byte("", (uint8_t *)(uintptr_t)file, 100);
    } else if (plays("corners")) {
        touch_byte(getenv("STL"), corners, 4 * corners_len);
    } else if (plays("normals")) {
        touch_byte(getenv("STL"), normals, 4 * normals_len);
    }
}

uint32_t ribbon_root_bits(uint32_t b) { return (void)b, 0; }
uint32_t ribbon_narrow_bits(uint64_t b) { return (void)b, 0; }
