/* Two laboratories, one structure, one set of buffers: parties FILE.pdb
 * reads the file and takes the segments out of its job: what is left, atoms, residues and chains, both laboratories share. Laboratory A has the file's own
 * helices and strands, laboratory B calls the first half of the atoms a helix and the rest a strand. Both build into one set of six buffers and use one
 * scratch. Checked is what ribbon.h promises of this: that each share holds, byte for byte, what the laboratory builds alone from a job of its own; that no
 * place outside the caller's share changes, nor one behind its mesh, nor the guards round every buffer; that shares may touch or be empty; that shares which
 * overlap or leave a buffer, a job that has segments and records that are not whole are refused, and nothing changes. Build and run: examples/run-c.
 * Exit status: 0 all was as promised, 1 a check failed, or a refusal, or a file that cannot be read, 2 wrong usage. */
#include "ribbon.h"
#include <errno.h>
#include <stdio.h>
#include <stdlib.h>
#include <string.h>

/* the six outputs, and then the scratch: words and floats */
enum { OUTPUTS = 6, BUFFERS = 8, WORDS = 6, FLOATS = 7 };
/* places: the guards of every buffer, those before A's share, between the shares, behind each mesh in its share, and behind B's share */
enum { GUARD = 16, FRONT = 1, GAP = 7, MORE = 3, TAIL = 5 };

static const char *const names[BUFFERS] = {"positions", "normals", "tags", "triangles", "tubes", "boxes", "scratch words", "scratch floats"};

static void stop(const char *what, const char *why) {
    fprintf(stderr, "parties: %s: %s\n", what, why);
    exit(1);
}

static void *get(size_t bytes) {
    void *p = malloc(bytes + 1);
    if (!p) stop("malloc", "no memory");
    return p;
}

/* ---- files, jobs and records */

struct bytes {
    uint8_t *at;
    size_t size;
};

/* all bytes of a file, of any size: a file that is read in part is not read */
static struct bytes read_file(const char *path) {
    FILE *f = fopen(path, "rb");
    if (!f) stop(path, strerror(errno));
    uint8_t *at = NULL;
    size_t room = 0, n = 0, got;
    do {
        if (n == room) {
            room = room ? 2 * room : 65536;
            at = realloc(at, room);
            if (!at) stop(path, "no memory for so long a file");
        }
        got = fread(at + n, 1, room - n, f);
        n += got;
    } while (got);
    if (ferror(f)) stop(path, strerror(errno));
    fclose(f);
    return (struct bytes){at, n};
}

static void refused(const char *call, const uint32_t *answer) {
    fprintf(stderr, "parties: %s: refused %u %u\n", call, answer[0], answer[1]);
    exit(1);
}

static struct bytes job_of(const char *path) {
    struct bytes file = read_file(path);
    uint32_t answer[4];
    ribbon_read_pdb(file.at, file.size, NULL, 0, answer);
    if (answer[0] != RIBBON_NO_JOB_ROOM) refused("ribbon_read_pdb", answer);
    struct bytes job = {get(answer[1]), answer[1]};
    ribbon_read_pdb(file.at, file.size, job.at, job.size, answer);
    if (answer[0]) refused("ribbon_read_pdb", answer);
    free(file.at);
    return job;
}

/* a job's numbers are big-endian */
static uint32_t number(const uint8_t *at, int bytes) {
    uint32_t n = 0;
    for (int i = 0; i < bytes; i++) n = n << 8 | at[i];
    return n;
}

static void put(uint8_t *at, int bytes, size_t n) {
    for (int i = bytes; i-- > 0; n >>= 8) at[i] = (uint8_t)n;
}

/* where a job's segment records stand, and how many bytes they have */
static size_t records_at(struct bytes job) { return 13 + number(job.at + 5, 2); }
static size_t records_size(struct bytes job) { return RIBBON_RECORD_SIZE * (size_t)number(job.at + 9, 2); }

static struct bytes records_of(struct bytes job) {
    struct bytes records = {get(records_size(job)), records_size(job)};
    memcpy(records.at, job.at + records_at(job), records.size);
    return records;
}

/* the job with these segment records instead of its own: the length and S are written anew */
static struct bytes with_records(struct bytes job, struct bytes records) {
    size_t front = records_at(job), own = records_size(job), size = job.size - own + records.size;
    struct bytes made = {get(size), size};
    memcpy(made.at, job.at, front);
    memcpy(made.at + front, records.at, records.size);
    memcpy(made.at + front + records.size, job.at + front + own, job.size - front - own);
    put(made.at, 4, size - 4);
    put(made.at + 9, 2, records.size / RIBBON_RECORD_SIZE);
    return made;
}

/* laboratory B's: a helix over the first half of the serials, and a strand over the rest */
static struct bytes records_by_half(struct bytes shared) {
    uint32_t least = UINT32_MAX, most = 0;
    for (const uint8_t *atom = shared.at + records_at(shared); atom < shared.at + shared.size; atom += 33) {
        uint32_t serial = number(atom, 4);
        if (serial < least) least = serial;
        if (serial > most) most = serial;
    }
    uint32_t middle = least > most ? most : least + (most - least) / 2;
    struct bytes records = {get(2 * RIBBON_RECORD_SIZE), 2 * RIBBON_RECORD_SIZE};
    records.at[0] = RIBBON_HELIX, put(records.at + 1, 4, least), put(records.at + 5, 4, middle);
    records.at[9] = RIBBON_SHEET, put(records.at + 10, 4, (size_t)middle + 1), put(records.at + 14, 4, most);
    return records;
}

/* ---- buffers with guards */

/* six outputs and the scratch, all of places of four bytes */
struct set {
    uint32_t *at[BUFFERS];
    size_t len[BUFFERS];
};

/* what a place holds before any call: as floats these are NaNs, each with bits of its own */
static uint32_t fresh(size_t place) { return 0x7FA00000u | ((uint32_t)place & 0x1FFFFF); }

static void lend(struct set *s, int b, size_t len) {
    s->at[b] = (uint32_t *)get(4 * (len + 2 * GUARD)) + GUARD;
    s->len[b] = len;
    for (size_t i = 0; i < len + 2 * GUARD; i++) (s->at[b] - GUARD)[i] = fresh(i);
}

static void lend_scratch(struct set *s, struct bytes job) {
    lend(s, WORDS, RIBBON_SCRATCH_WORDS(RIBBON_RESIDUES(job.at)));
    lend(s, FLOATS, RIBBON_SCRATCH_FLOATS(RIBBON_RESIDUES(job.at)));
}

static struct set copy_of(const struct set *s) {
    struct set copy = *s;
    for (int b = 0; b < BUFFERS; b++) {
        copy.at[b] = (uint32_t *)get(4 * (s->len[b] + 2 * GUARD)) + GUARD;
        memcpy(copy.at[b] - GUARD, s->at[b] - GUARD, 4 * (s->len[b] + 2 * GUARD));
    }
    return copy;
}

static void give_back(struct set *s) {
    for (int b = 0; b < BUFFERS; b++) free(s->at[b] - GUARD);
}

/* every place of buffer b is as it was, guards too, but for `count` places from `start` on */
static void kept(const struct set *was, const struct set *is, int b, size_t start, size_t count, const char *when) {
    const uint32_t *before = was->at[b] - GUARD, *after = is->at[b] - GUARD;
    for (size_t i = 0; i < is->len[b] + 2 * GUARD; i++) {
        if (before[i] == after[i] || (i >= GUARD + start && i < GUARD + start + count)) continue;
        fprintf(stderr, "parties: %s: place %td of %s was touched\n", when, (ptrdiff_t)i - GUARD, names[b]);
        exit(1);
    }
}

/* ---- the laboratories */

struct party {
    const char *name;
    struct bytes records;
    uint32_t plan[9];
    size_t needs[OUTPUTS]; /* places for its mesh */
    struct set alone;      /* what ribbon_build leaves of a job of its own in buffers of its own */
};

/* start and length, in places, of each party's share of each output */
struct deal {
    size_t of[2][2 * OUTPUTS];
};

struct table {
    struct bytes shared;
    struct party party[2];
    struct set set;
};

/* the plan with the party's records, and how many places its mesh needs */
static void plan(struct bytes shared, struct party *p) {
    struct set scratch;
    lend_scratch(&scratch, shared);
    ribbon_plan_records(shared.at, shared.size, p->records.at, p->records.size, 0, scratch.at[WORDS], scratch.len[WORDS], (float *)scratch.at[FLOATS],
                        scratch.len[FLOATS], p->plan);
    if (p->plan[0]) refused("ribbon_plan_records", p->plan);
    free(scratch.at[WORDS] - GUARD), free(scratch.at[FLOATS] - GUARD);
    size_t k = p->plan[1], v = p->plan[2], t = p->plan[3], needs[OUTPUTS] = {3 * v, 3 * v, v, 3 * t, 5 * k, 6 * k};
    memcpy(p->needs, needs, sizeof needs);
}

/* the party's mesh from a job of its own, by ribbon_build: nobody else is there */
static void build_alone(struct bytes job, struct party *p) {
    struct set *s = &p->alone;
    uint32_t answer[4];
    for (int b = 0; b < OUTPUTS; b++) lend(s, b, p->needs[b]);
    lend_scratch(s, job);
    ribbon_build(job.at, job.size, (float *)s->at[0], s->len[0], (float *)s->at[1], s->len[1], s->at[2], s->len[2], s->at[3], s->len[3], s->at[4], s->len[4],
                 (float *)s->at[5], s->len[5], s->at[WORDS], s->len[WORDS], (float *)s->at[FLOATS], s->len[FLOATS], answer);
    if (answer[0]) refused("ribbon_build", answer);
    if (memcmp(answer, p->plan, sizeof answer)) stop(p->name, "its plan on the shared job differs from what it builds alone");
}

/* one party's call: its own shares stand before the other's. The scratch holds anything before it; after a mesh, and after too little room, it is 0 */
static void call(struct table *t, const struct deal *d, int who, uint32_t answer[4]) {
    struct set *s = &t->set;
    const struct bytes *records = &t->party[who].records;
    size_t shares[24];
    memcpy(shares, d->of[who], sizeof d->of[who]);
    memcpy(shares + 12, d->of[!who], sizeof d->of[!who]);
    for (int b = WORDS; b < BUFFERS; b++)
        for (size_t i = 0; i < s->len[b]; i++) s->at[b][i] = fresh(i);
    ribbon_build_share(t->shared.at, t->shared.size, records->at, records->size, shares, (float *)s->at[0], s->len[0], (float *)s->at[1], s->len[1], s->at[2],
                       s->len[2], s->at[3], s->len[3], s->at[4], s->len[4], (float *)s->at[5], s->len[5], s->at[WORDS], s->len[WORDS],
                       (float *)s->at[FLOATS], s->len[FLOATS], answer);
    int cleared = !answer[0] || answer[0] == RIBBON_NO_ROOM;
    for (int b = WORDS; b < BUFFERS; b++)
        for (size_t i = 0; i < s->len[b]; i++)
            if (s->at[b][i] != (cleared ? 0 : fresh(i))) stop(names[b], cleared ? "a place is not 0 after the call" : "a place was touched under a refusal");
}

/* a party builds: its share holds what it builds alone, and no other place has changed, in no buffer */
static void builds(struct table *t, const struct deal *d, int who, const char *when) {
    const struct party *p = &t->party[who];
    struct set before = copy_of(&t->set);
    uint32_t answer[4];
    call(t, d, who, answer);
    if (memcmp(answer, p->plan, sizeof answer)) stop(when, "the answer is not the party's plan");
    for (int b = 0; b < OUTPUTS; b++) {
        size_t start = d->of[who][2 * b];
        if (memcmp(t->set.at[b] + start, p->alone.at[b], 4 * p->needs[b])) stop(when, "the share does not hold what the party builds alone");
        kept(&before, &t->set, b, start, p->needs[b], when);
    }
    for (int b = WORDS; b < BUFFERS; b++) kept(&before, &t->set, b, 0, t->set.len[b], when);
    give_back(&before);
}

/* a party is refused by this number: nothing has changed. Too little room carries the party's own counts */
static void refuses(struct table *t, const struct deal *d, int who, uint32_t by, const char *when) {
    struct set before = copy_of(&t->set);
    uint32_t answer[4], expected[4] = {by, 0, 0, 0};
    if (by == RIBBON_NO_ROOM) memcpy(expected + 1, t->party[who].plan + 1, 12);
    call(t, d, who, answer);
    if (memcmp(answer, expected, sizeof answer)) {
        fprintf(stderr, "parties: %s: the answer is %u %u %u %u, and not %u %u %u %u\n", when, answer[0], answer[1], answer[2], answer[3], expected[0],
                expected[1], expected[2], expected[3]);
        exit(1);
    }
    for (int b = 0; b < BUFFERS; b++) kept(&before, &t->set, b, 0, b < OUTPUTS ? 0 : t->set.len[b], when);
    give_back(&before);
}

/* ---- what is tried */

/* A's shares from place `front` on, B's `gap` places behind them, and each `more` places longer than its mesh */
static struct deal deal_out(const struct table *t, size_t front, size_t gap, size_t more) {
    struct deal d;
    for (int b = 0; b < OUTPUTS; b++) {
        size_t *a = d.of[0] + 2 * b, *other = d.of[1] + 2 * b;
        a[0] = front, a[1] = t->party[0].needs[b] + more;
        other[0] = front + a[1] + gap, other[1] = t->party[1].needs[b] + more;
    }
    return d;
}

/* places as they were before any call */
static void wipe(struct set *s, int b, size_t start, size_t count) {
    for (size_t i = start; i < start + count; i++) s->at[b][i] = fresh(GUARD + i);
}

/* A builds, then B, and, A's share being wiped, A again */
static void in_turn(struct table *t, const struct deal *d) {
    for (int b = 0; b < OUTPUTS; b++) wipe(&t->set, b, 0, t->set.len[b]);
    builds(t, d, 0, "A's first call");
    builds(t, d, 1, "B's call");
    for (int b = 0; b < OUTPUTS; b++) wipe(&t->set, b, d->of[0][2 * b], d->of[0][2 * b + 1]);
    builds(t, d, 0, "A's second call");
}

/* in one buffer after the other B's share has one place of A's, or one behind the buffer, or starts so far out that start + length wraps; either party calls */
static int bad_shares(struct table *t, const struct deal *good) {
    int calls = 0;
    for (int b = 0; b < OUTPUTS; b++) {
        const size_t *a = good->of[0] + 2 * b, *other = good->of[1] + 2 * b;
        const size_t starts[3] = {a[0] + a[1] - 1, t->set.len[b] - other[1] + 1, SIZE_MAX - other[1] + 2};
        static const char *const when[3] = {"shares that overlap", "a share that leaves its buffer", "a share whose end wraps"};
        for (int i = 0; i < 6; i++, calls++) {
            struct deal d = *good;
            d.of[1][2 * b] = starts[i % 3];
            refuses(t, &d, i / 3, RIBBON_BAD_SHARES, when[i % 3]);
        }
    }
    return calls;
}

/* A's shares are empty, by turns within B's and at the buffer's end: A has no room, but for a mesh of nothing, and B builds */
static void empty_shares(struct table *t, const struct deal *good) {
    struct deal d = *good;
    for (int b = 0; b < OUTPUTS; b++) {
        d.of[0][2 * b] = b % 2 ? t->set.len[b] : d.of[1][2 * b] + 1;
        d.of[0][2 * b + 1] = 0;
        wipe(&t->set, b, d.of[1][2 * b], d.of[1][2 * b + 1]);
    }
    if (t->party[0].plan[1]) refuses(t, &d, 0, RIBBON_NO_ROOM, "A with empty shares");
    else builds(t, &d, 0, "A with empty shares and no tubes");
    builds(t, &d, 1, "B beside empty shares");
}

/* a job that has segments is not shared, and records are whole: else 4, as for any size that is wrong */
static void bad_sizes(struct table *t, const struct deal *d) {
    struct table other = *t;
    other.shared = with_records(t->shared, t->party[1].records);
    refuses(&other, d, 0, RIBBON_BAD_SIZE, "a job that has segments");
    free(other.shared.at);
    other.shared = t->shared;
    other.party[1].records.size--;
    refuses(&other, d, 1, RIBBON_BAD_SIZE, "records that are cut by one byte");
}

/* ---- the whole */

static void print_party(const struct party *p, const char *whose) {
    printf("laboratory %s, segments %zu, %s: tubes %u vertices %u triangles %u\n", p->name, p->records.size / RIBBON_RECORD_SIZE, whose, p->plan[1],
           p->plan[2], p->plan[3]);
}

/* the shared job, both laboratories' records, plans and meshes of their own, and one set of buffers with room for both */
static struct table prepare(struct bytes job) {
    struct table t = {.shared = with_records(job, (struct bytes){job.at, 0}), .party = {{.name = "A", .records = records_of(job)}, {.name = "B"}}};
    t.party[1].records = records_by_half(t.shared);
    for (struct party *p = t.party; p < t.party + 2; p++) {
        struct bytes own = with_records(t.shared, p->records);
        if (p == t.party && (own.size != job.size || memcmp(own.at, job.at, job.size))) stop("A", "the file's records do not make the file's job again");
        plan(t.shared, p);
        build_alone(own, p);
        free(own.at);
    }
    for (int b = 0; b < OUTPUTS; b++) lend(&t.set, b, FRONT + t.party[0].needs[b] + MORE + GAP + t.party[1].needs[b] + MORE + TAIL);
    lend_scratch(&t.set, t.shared);
    return t;
}

int main(int argc, char **argv) {
    if (argc != 2) return fprintf(stderr, "usage: parties FILE.pdb\n"), 2;
    struct bytes job = job_of(argv[1]);
    struct table t = prepare(job);
    printf("one structure: chains %u residues %zu atoms %u\n", number(job.at + 5, 2), RIBBON_RESIDUES(job.at), number(job.at + 11, 2));
    print_party(t.party, "the file's");
    print_party(t.party + 1, "a helix and a strand of its own");

    struct deal apart = deal_out(&t, FRONT, GAP, MORE), touching = deal_out(&t, 0, 0, 0);
    in_turn(&t, &apart);
    printf("A built, then B, then A: each share holds what its laboratory builds alone, byte for byte, and no other place was touched\n");
    printf("shares that overlap or leave a buffer: %d calls refused by %d, and nothing was touched\n", bad_shares(&t, &apart), RIBBON_BAD_SHARES);
    bad_sizes(&t, &apart);
    printf("a job that has segments, records that are cut: refused by %d, and nothing was touched\n", RIBBON_BAD_SIZE);
    in_turn(&t, &touching);
    printf("shares that touch: the same meshes\n");
    empty_shares(&t, &apart);
    printf("empty shares of A: B builds the same mesh, and A is told what it needs\n");

    for (int i = 0; i < 2; i++) free(t.party[i].records.at), give_back(&t.party[i].alone);
    free(t.shared.at), free(job.at), give_back(&t.set);
    if (fflush(stdout) || ferror(stdout)) stop("standard output", strerror(errno));
    return 0;
}
