/* The proved ribbon builder for C and C++: from a PDB file to a job, from a job to a mesh, from a mesh to a binary STL file, in buffers that the caller lends.
 * A host needs no other file.
 *
 * Link target/staticlib/libribbon_c.a, which `tools/staticlib ribbon_c` writes. It is for x86-64 Linux alone, and of the C library it takes memcpy and memset.
 *
 * WHAT IS DEMANDED. A buffer is a pointer and its length in places (bytes, words or floats). The pointer is good for that length, and no two buffers of one
 * call overlap, the answer among them; an empty buffer may be null. Nothing else is demanded: every file, every job and every length has an answer. A refused
 * call changes no output buffer, and places past what a call writes stay as they were. What each call answers, and what it leaves in every buffer, is set out
 * in crates/promises/specs/Calls.antt, for two parties in crates/party_promises/specs/Calls.antt, for ribbon_tube in crates/tube_call/specs/Part.antt, for the
 * other three in specs/Call.antt of crates/pdb_reader, crates/stl_writer and crates/stl_reader, as words in crates/ribbon_c/specs/Words.antt, and proved.
 *
 * THE ORDER OF A HOST'S CALLS (examples/host.c is such a host):
 *   1. ribbon_read_pdb with no room, null and 0: of a right file RIBBON_NO_JOB_ROOM carries the job's size; any other refusal says what is wrong with the file.
 *   2. ribbon_read_pdb with room for that many bytes: the job.
 *   3. ribbon_plan with scratch for RIBBON_RESIDUES(job): the mesh will have K tubes, V vertices and T triangles.
 *   4. ribbon_build with room for K, V and T: the mesh. A host whose buffers have a fixed size can leave out step 3: RIBBON_NO_ROOM carries K, V and T.
 *   5. ribbon_tube for the triangles of one tube.
 *   6. ribbon_write_stl with room for RIBBON_STL_SIZE(T) bytes: the file that a print shop takes (examples/stl.c). ribbon_read_stl lists such a file.
 *
 * A JOB has 13 + C + 9 S + 33 A bytes, its numbers big-endian. A host that has no PDB file, or that hides a chain, writes it itself:
 *   byte  0  u32  how many bytes follow these four
 *   byte  4  u8   the version, 1
 *   byte  5  u16  C, the chains, at most RIBBON_MAX_CHAINS
 *   byte  7  u16  R, the residues, at most RIBBON_MAX_RESIDUES
 *   byte  9  u16  S, the segments: helices and strands
 *   byte 11  u16  A, the atoms
 *   byte 13  C bytes, one for each chain: 1 visible, 0 hidden
 *   then S segments of 9 bytes: u8 kind (enum ribbon_kind), u32 start serial, u32 end serial; a start above the end is a segment with no atoms
 *   then A atoms of 33 bytes: u32 serial, u8 role (0 other, 1 C-alpha, 2 backbone oxygen), u16 residue, u16 chain, and x, y, z, each the 64 bits of a double
 * Chains, residues, segments, atoms and tubes are numbered from 0; for an atom's residue or chain 65535 means none. In a job of ribbon_read_pdb residues and
 * chains are numbered by their first appearance in ATOM lines, and every chain is visible.
 *
 * A MESH is K tubes, one after the other in every buffer. A tube of n residues has 64 n - 54 vertices and 128 n - 112 triangles, and is closed.
 *   positions  3 V floats, x, y, z of each vertex, in the unit of the job's coordinates: a PDB file's is the angstrom.
 *   normals    3 V floats, which point out of the tube. Each is a vector times 1 / its length, so of length 1 but for rounding. The normals at the centres of both
 *              caps of a tube are finite and not 0, 0, 0. Where a tube's last two spline points coincide, as those of a coil whose last two C-alphas are at one
 *              place, its end cap has the tangent of the last sample, which is 0, 1, 0 or what rounding leaves: it may point into the tube. A ring's normal whose
 *              length is 0 would be 0, 0, 0.
 *   tags       V words: the number of the residue that the vertex belongs to.
 *   triangles  3 T words, the corners, each the number of a vertex, counted over the whole mesh and not from its tube's first one. The triangles wind INWARD:
 *              seen from outside their corners run clockwise. A program that shades or prints by winding wants two corners of each triangle swapped.
 *   tubes      5 K words, for each tube: kind (enum ribbon_kind), first residue, residues n, first vertex, first triangle.
 *   boxes      6 K floats, for each tube: the least x, y, z of its vertices, the centres of its caps too, then the greatest. No vertex of a tube is outside its
 *              box, each of the six floats is a coordinate of one of them (of equals, as -0 and 0, the first), and where the boxes of two tubes, of one mesh or
 *              of two, are apart on an axis, so are their vertices. No mesh so far has had a NaN: where a tube's first vertex had one, both floats of that axis would
 *              be NaN, and any other would be passed over.
 * The scratch is RIBBON_SCRATCH_WORDS(R) words and RIBBON_SCRATCH_FLOATS(R) floats, whatever they hold. Refusals 1 to 9 and 20 leave it as it was; after any
 * other answer these places are 0.
 *
 * TWO PARTIES ON ONE STRUCTURE, two laboratories that mark helices and strands of the same atoms (examples/parties.c): both hand over one shared job, whose S
 * is 0, and each its own segment records, RIBBON_RECORD_SIZE bytes each, laid out as in a job and numbered from 0. The six output buffers are one set, and of
 * each of them each party has a share: a start and a length, in places. A start need not be a multiple of 3, 5 or 6; shares may touch; an empty one overlaps
 * nothing, and may stand anywhere up to the buffer's end. start + length is never taken with wrapping.
 *   1. ribbon_plan_records for each party: its own K, V and T. So many places does its share need: 3 V, 3 V, V, 3 T, 5 K and 6 K.
 *   2. ribbon_build_share, by either party, as often as it likes and in any order, always with both parties' shares, its own first.
 * But for what 4 and 20 say of parties, a party is answered as ribbon_build answers the job with its records in it, in buffers that are its share: by the same
 * words, and by the same mesh from the share's first place on, corners and starts counted from 0 there. No place outside its share changes. So whatever the
 * other party calls with the same shares, before it or after it, refused or not, is seen neither in its answer nor in its share. The scratch may be one and the
 * same for both. Limit 10 is for each party alone. A party hands its share to ribbon_tube or ribbon_write_stl as positions + start and the share's length, and
 * so on.
 *
 * A BINARY STL FILE has RIBBON_STL_SIZE(T) = 84 + 50 T bytes, its numbers little-endian:
 *   byte  0  80 bytes, the header: all 0 where we write; the reader skips it
 *   byte 80  u32  T, the facets
 *   byte 84  T facets of 50 bytes: the normal's x, y, z, then x, y, z of the three corners, each the 32 bits of a float, and a u16, which is 0 where we write;
 *            the reader skips it
 * The facets are the mesh's triangles in order, so they wind INWARD too. A facet's normal is that of its own plane, by the corners' order, so it points inward
 * as well; it has nothing to do with the mesh's normals. It is 0, 0, 0 where the corners' cross has length 0. Every NaN is written 7FC00000.
 *
 * MESH BUFFERS ARE CONSISTENT, for K, V and T, when all six have room for them, V is at most RIBBON_MAX_VERTICES, and of every tube: the kind is 0 to 2, n is 2
 * to RIBBON_MAX_RESIDUES, first vertex and first triangle are how many vertices and triangles the tubes before it have, 64n - 54 and 128n - 112 each, and every
 * corner of its triangles is a vertex of its own; and all tubes together have V and T. The first residue, the tags and the floats may be anything. What ribbon_build wrote is consistent.
 *
 * AN ANSWER is words: 0 and what was asked for, or a refusal's number (enum ribbon_refusal) and what it carries, with 0 where there is nothing. K, V, T and the
 * size of a job or of an STL file always fit. Of a line's number the low 32 bits are given, so past 4,294,967,295 lines it wraps.
 *
 * THREADS. The library has no variables and allocates nothing: any number of threads may call it at once, each on buffers of its own. Two parties on one set of
 * buffers call one after the other: each call is lent the whole of them, and nothing is proved of two at once. The job and the records are only read.
 *
 * THE STACK is bounded by no theorem. ribbon_read_pdb keeps tables there and wants 700 KiB: it was seen to use 674,488 bytes. All other calls want 32 KiB:
 * ribbon_plan and ribbon_build, and the two calls of parties, were seen to use less than 8, ribbon_write_stl and ribbon_read_stl less than 1. A thread with too
 * little crashes. glibc gives a thread 8 MiB, musl 128 KiB: where a thread is to read files, give it more, by pthread_attr_setstacksize(&attributes, 1 << 20).
 *
 * A NaN in a place that no call writes: the proofs know one NaN, so they do not speak of its bits. The code does not touch the place. For the same reason a
 * NaN in an STL file is listed as a NaN, and its bits are not promised; they were seen to be 7FC00000, whatever the file's were. */
#ifndef RIBBON_H
#define RIBBON_H

#include <stddef.h>
#include <stdint.h>

#ifdef __cplusplus
extern "C" {
#endif

#define RIBBON_MAX_CHAINS 255
#define RIBBON_MAX_RESIDUES 16384
#define RIBBON_MAX_VERTICES 1048576
#define RIBBON_MAX_JOB 2752738 /* bytes, that of 255 chains, 65,535 segments and 65,535 atoms */

/* R, where the job has 13 bytes or more. A job with R above RIBBON_MAX_RESIDUES is refused whatever scratch is lent. */
#define RIBBON_RESIDUES(job) ((size_t)((const uint8_t *)(job))[7] * 256 + ((const uint8_t *)(job))[8])

/* The bytes of a segment record, and how many records a party has at most. */
#define RIBBON_RECORD_SIZE 9
#define RIBBON_MAX_RECORDS 65535

/* The scratch for r residues. */
#define RIBBON_SCRATCH_WORDS(r) (8 * (size_t)(r))
#define RIBBON_SCRATCH_FLOATS(r) (32 * (size_t)(r))

enum ribbon_kind { RIBBON_COIL = 0, RIBBON_HELIX = 1, RIBBON_SHEET = 2 };

/* The bytes of a binary STL file of t facets. */
#define RIBBON_STL_SIZE(t) (84 + 50 * (size_t)(t))

/* The refusals in the order of checking: of several faults the first here is given, but for ribbon_read_stl. ribbon_build gives 1 to 11, ribbon_plan 1 to 10,
 * and so do ribbon_build_share and ribbon_plan_records, where ribbon_build_share gives 20 too, after 8 and before 9. ribbon_read_pdb gives 12 to 16, where the
 * first line at fault decides among 12 to 14. No job that ribbon_read_pdb wrote is refused by 1 to 8, by ribbon_build or ribbon_plan. ribbon_write_stl gives 17
 * and then 18, ribbon_read_stl 19 and then 18. */
enum ribbon_refusal {
    /* The job has under 13 bytes, or its length field differs from the bytes after it. Carries 0. Hand over the whole job, and no byte more. */
    RIBBON_BAD_LENGTH = 1,
    /* The version is not 1. Carries the version. Write 1, and the layout above. */
    RIBBON_BAD_VERSION = 2,
    /* There are more than 255 chains or 16,384 residues. Carries 0. Make several jobs of it. */
    RIBBON_BAD_COUNTS = 3,
    /* The job's size is not 13 + C + 9 S + 33 A. Carries 0. Let the four counts be those of what follows. Of a party also: S is not 0, or its records are not a
     * multiple of 9 bytes, or are more than 65,535. Take the segments out of the shared job, and hand over whole records. */
    RIBBON_BAD_SIZE = 4,
    /* A chain's byte is above 1. Carries the first such chain. Write 1 or 0. */
    RIBBON_BAD_VISIBILITY = 5,
    /* A segment's kind is above 2. Carries the first such segment, of a party the first such record. Write one of enum ribbon_kind. */
    RIBBON_BAD_KIND = 6,
    /* A role is above 2, or a residue is R or more, or a chain C or more, and not 65535. Carries the first such atom. Let R and C count them all. */
    RIBBON_BAD_ATOM = 7,
    /* A coordinate is not within -16384 to 16384, a NaN among them. Carries the first such atom. Move the model to the origin. */
    RIBBON_BAD_COORDINATE = 8,
    /* In one of the six buffers the shares of two parties overlap, or one of them leaves the buffer. Carries 0. Deal them out anew; both are checked, whoever
     * calls, those of a party with no tubes too. */
    RIBBON_BAD_SHARES = 20,
    /* There are fewer than 8 R scratch words or 32 R scratch floats. Carries 0. Lend RIBBON_SCRATCH_WORDS(R) and RIBBON_SCRATCH_FLOATS(R). */
    RIBBON_NO_SCRATCH = 9,
    /* The mesh would have more than 1,048,576 vertices. Carries 0. Hide chains, or make several jobs of it. */
    RIBBON_TOO_MANY_VERTICES = 10,
    /* An output buffer is too short, or a party's share of it. Carries K, V and T. Lend room for these. */
    RIBBON_NO_ROOM = 11,
    /* A line ends before its last column read, 54 of ATOM, 38 of HELIX and SHEET. Carries the line, counted from 1. Pad lines with blanks to 80 columns. */
    RIBBON_SHORT_LINE = 12,
    /* A serial, a residue number or a coordinate is not right. Carries the line. Write whole numbers in digits, a serial without a minus, and coordinates with
     * a point and three decimals. */
    RIBBON_BAD_NUMBER = 13,
    /* A HELIX or SHEET line names a residue that no right ATOM line has. Carries the line. Let it begin and end at residues that have one. */
    RIBBON_ABSENT_RESIDUE = 14,
    /* The file has more than 255 chains, 16,384 residues, 65,535 segments or 65,535 atoms. Carries 0. Make several files of it. */
    RIBBON_PAST_LIMITS = 15,
    /* The job buffer is too short. Carries the size needed. Lend so many bytes. */
    RIBBON_NO_JOB_ROOM = 16,
    /* The mesh buffers are not consistent for K, V and T. Carries 0. Hand over what ribbon_build left, and the K, V and T that it answered. */
    RIBBON_INCONSISTENT = 17,
    /* A lent buffer is too short. Of the writer it carries the file's size: lend so many bytes. Of the reader it carries T: lend 9 T and 3 T floats. */
    RIBBON_NO_STL_ROOM = 18,
    /* The file is not 84 + 50 T bytes long, T being its own count, or it has under 84. Carries 0. Fetch it anew; an STL file in text (ASCII) is not read. */
    RIBBON_NOT_STL = 19
};

/* Builds the mesh of a job. For V vertices, T triangles and K tubes it needs 3V positions, 3V normals, V tags, 3T triangle corners,
 * 5K tube words (kind, first residue, residues, first vertex, first triangle) and 6K box floats; for R residues 8R scratch words and
 * 32R scratch floats. answer: 0, K, V, T; or a refusal's number, 1 to 11, and what it carries, 0 where there is nothing. */
void ribbon_build(const uint8_t *job, size_t job_len, float *positions, size_t positions_len, float *normals, size_t normals_len,
                  uint32_t *tags, size_t tags_len, uint32_t *triangles, size_t triangles_len, uint32_t *tubes, size_t tubes_len,
                  float *boxes, size_t boxes_len, uint32_t *words, size_t words_len, float *floats, size_t floats_len,
                  uint32_t answer[4]);

/* Counts without building. answer: 0, K, V, T and tube k's five words, all five 0 if k is K or more; or a refusal as above, then 0s. */
void ribbon_plan(const uint8_t *job, size_t job_len, size_t k, uint32_t *words, size_t words_len, float *floats, size_t floats_len,
                 uint32_t answer[9]);

/* Builds the mesh of a shared job with the caller's records, in the caller's share of each buffer; the buffers and their lengths are the whole ones. shares:
 * the caller's twelve numbers, start and length of its share of positions, normals, tags, triangles, tubes and boxes, in places; then the other party's twelve.
 * A share needs the places that ribbon_build needs in a buffer; the scratch is the same. Inside the share places past the mesh stay, and outside it every place
 * does. answer: 0, K, V, T of the caller's mesh; or a refusal's number, 1 to 11 or 20, and what it carries. Where the caller's six
 * shares are empty, RIBBON_NO_ROOM carries what they need. */
void ribbon_build_share(const uint8_t *job, size_t job_len, const uint8_t *records, size_t records_len, const size_t shares[24],
                        float *positions, size_t positions_len, float *normals, size_t normals_len, uint32_t *tags, size_t tags_len,
                        uint32_t *triangles, size_t triangles_len, uint32_t *tubes, size_t tubes_len, float *boxes, size_t boxes_len,
                        uint32_t *words, size_t words_len, float *floats, size_t floats_len, uint32_t answer[4]);

/* Counts without building, of a shared job with the caller's records; there is no share and no refusal 20. answer: 0, K, V, T and the five words of the tube of
 * that number, all five 0 if it is K or more; or a refusal's number, 1 to 10, and what it carries, then 0s. */
void ribbon_plan_records(const uint8_t *job, size_t job_len, const uint8_t *records, size_t records_len, size_t tube, uint32_t *words, size_t words_len,
                         float *floats, size_t floats_len, uint32_t answer[9]);

/* Where tube k's triangles stand in the caller's own triangle buffer: the part begins at place *start and has as many places as the
 * answer says; both are 0 where there is no such part. */
size_t ribbon_tube(const uint32_t *tubes, size_t tubes_len, const uint32_t *triangles, size_t triangles_len, size_t k, size_t *start);

/* Reads a PDB file's ATOM, HELIX and SHEET lines, up to the first ENDMDL or a second MODEL, and writes the job to the front of job_out; a
 * refused file changes no place of it, and places past the job stay. answer: 0, the job's size, 0, 0; or a refusal's number, 12 to 16, what
 * it carries (the line, counted from 1, for 12 to 14, 0 for 15, the size needed for 16), 0, 0. RIBBON_MAX_JOB bytes hold every job. */
void ribbon_read_pdb(const uint8_t *file, size_t file_len, uint8_t *job_out, size_t job_out_len, uint32_t answer[4]);

/* Writes the mesh of k tubes, v vertices and t triangles as a binary STL file to the front of stl. The six mesh buffers are only read; any k, v and t may be
 * handed over with any buffers, and none is taken on trust. A refusal changes no place of stl, and places past the file stay. answer: 0, the file's size, 0, 0;
 * or RIBBON_INCONSISTENT, 0, 0, 0; or RIBBON_NO_STL_ROOM, the size needed, 0, 0, so that null and 0 for stl ask for it. */
void ribbon_write_stl(const float *positions, size_t positions_len, const float *normals, size_t normals_len, const uint32_t *tags, size_t tags_len,
                      const uint32_t *triangles, size_t triangles_len, const uint32_t *tubes, size_t tubes_len, const float *boxes, size_t boxes_len,
                      size_t k, size_t v, size_t t, uint8_t *stl, size_t stl_len, uint32_t answer[4]);

/* Lists the facets of a binary STL file, ours or another program's: 9 floats a facet in corners, x, y, z of each of the three, and 3 in normals, as they stand
 * in the file. A refusal changes no place of either, and places past the lists stay. answer: 0, T, 0, 0; or RIBBON_NOT_STL, 0, 0, 0; or RIBBON_NO_STL_ROOM, T,
 * 0, 0. A file that ribbon_write_stl wrote is listed bit for bit. */
void ribbon_read_stl(const uint8_t *file, size_t file_len, float *corners, size_t corners_len, float *normals, size_t normals_len, uint32_t answer[4]);

#ifdef __cplusplus
}
#endif
#endif
