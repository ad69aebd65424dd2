//! A plain reading of 02 §4: mesh buffers into binary STL, and binary STL into lists of floats, or one of the refusals 17 to 19. 02's sentences
//! stand at the places that they decide.

use std::ops::Range;

use crate::{
    calls::{Buffers, Counts, needs},
    job::Refusal,
    stand_ins::Vec3F32,
    tubes::{MAX_VERTICES, triangles_of, vertices_of},
    wrong::{Mutation, wrong},
};

pub const INCONSISTENT: u32 = 17;
pub const NO_ROOM: u32 = 18;
pub const NOT_STL: u32 = 19;

/// '80 header bytes, little-endian u32 triangle count, then 50 bytes a triangle'.
pub const HEADER: usize = 80;
pub const FACET: usize = 50;
const NAN: u32 = 0x7FC0_0000;

/// The size of a file, and what the writer's 18 carries. It does not wrap: 84 + 50T is below 2^38.
pub fn size(t: u32) -> u64 {
    let size = HEADER as u64 + 4 + FACET as u64 * t as u64;
    size - wrong(Mutation::StlSizeOneShort) as u64
}

// ── Consistent mesh buffers ───────────────────────────────────────────────────

/// 'they have room for K, V and T': all six, also those that the writer does not read.
fn have_room(b: &Buffers, c: Counts) -> bool {
    let lengths = [
        b.positions.len(),
        b.normals.len(),
        b.tags.len(),
        b.triangles.len(),
        b.tubes.len(),
        b.boxes.len(),
    ];
    let needs = needs(c.k as u64, c.v as u64, c.t as u64, 0);
    let unasked = |i: usize| {
        wrong(Mutation::StlBoxesUnasked) && i == 5
            || wrong(Mutation::StlNormalsUnasked) && i == 1
            || wrong(Mutation::StlTagsUnasked) && i == 2
    };
    (0..6).all(|i| needs[i] <= lengths[i] as u64 || unasked(i))
}

/// Where a tube's vertices and its triangles stand.
pub struct Span {
    pub vertices: Range<u64>,
    pub triangles: Range<u64>,
}

/// 'kinds are 0 to 2, n is 2 to 16,384, starts are the running sums from 0': of this record, so many vertices and triangles before it. The
/// first residue is free. 02 asks for n up to 16,384, though a longer tube has too many vertices anyway.
fn span_of(words: [u32; 5], v: u64, t: u64) -> Option<Span> {
    let [kind, residue, n, first_vertex, first_triangle] = words.map(u64::from);
    let most_kind = 2 + wrong(Mutation::StlKindThree) as u64;
    let least = 2 - wrong(Mutation::StlOneResidue) as u64;
    let right = kind <= most_kind
        && (least..=16_384).contains(&n)
        && (first_vertex == v || wrong(Mutation::StlFirstVertexFree))
        && (first_triangle == t || wrong(Mutation::StlFirstTriangleFree))
        && (residue <= 16_384 || !wrong(Mutation::StlFirstResidueRead));
    right.then(|| Span {
        vertices: v..v + vertices_of(n),
        triangles: t..t + triangles_of(n),
    })
}

/// The tubes one after another, 'and end at V and T'.
fn spans(b: &Buffers, c: Counts) -> Option<Vec<Span>> {
    let (mut v, mut t) = (0, 0);
    let mut spans = Vec::new();
    for words in b.tubes.chunks_exact(5).take(c.k as usize) {
        let span = span_of(words.try_into().unwrap(), v, t)?;
        (v, t) = (span.vertices.end, span.triangles.end);
        spans.push(span);
    }
    let ends = v == c.v as u64 && t == c.t as u64;
    (ends || wrong(Mutation::StlEndsFree)).then_some(spans)
}

/// 'each triangle's corners lie in its own tube'.
fn own_corners(b: &Buffers, c: Counts, span: &Span) -> bool {
    let mut own = span.vertices.clone();
    own.end += wrong(Mutation::StlNextTubesCorner) as u64;
    if wrong(Mutation::StlAnyCorner) {
        own = 0..c.v as u64;
    }
    let places = 3 * span.triangles.start as usize..3 * span.triangles.end as usize;
    // There is room for all of T; tubes that pass it are none of ours.
    let corners = b.triangles.get(places);
    corners.is_some_and(|l| l.iter().all(|&i| own.contains(&(i as u64))))
}

/// 'Mesh buffers are consistent when they have room for K, V and T, V is within the limit, kinds are 0 to 2, n is 2 to 16,384, starts are the
/// running sums from 0 and end at V and T, and each triangle's corners lie in its own tube': the tubes, or none.
pub fn consistent(b: &Buffers, c: Counts) -> Option<Vec<Span>> {
    if !have_room(b, c) || c.v as u64 > MAX_VERTICES {
        return None;
    }
    if wrong(Mutation::StlNoTubesRefused) && c.k == 0 {
        return None;
    }
    let spans = spans(b, c)?;
    let own = spans.iter().all(|span| own_corners(b, c, span));
    own.then_some(spans)
}

// ── Writing ───────────────────────────────────────────────────────────────────

fn word_bytes(word: u32) -> [u8; 4] {
    if wrong(Mutation::StlBigEndian) {
        return word.to_be_bytes();
    }
    word.to_le_bytes()
}

/// 'a NaN is written 7FC00000', be it of a normal or of a corner.
fn float_bytes(f: f32) -> [u8; 4] {
    if f.is_nan() && !wrong(Mutation::StlNanKept) {
        return word_bytes(NAN);
    }
    word_bytes(f.to_bits())
}

/// The vertex at this place of a buffer of 3 floats each. Consistent buffers have it; of what a mistake takes for consistent some have not.
fn vector(floats: &[f32], i: u32) -> Vec3F32 {
    let at = 3 * i as usize;
    match floats.get(at..at + 3) {
        Some(f) => Vec3F32::new(f[0], f[1], f[2]),
        None => Vec3F32::new(0.0, 0.0, 0.0),
    }
}

/// 'The facet normal is the normalised cross of the second corner less the first and the third less the first; length 0 gives zeros'.
pub fn facet_normal([a, b, c]: [Vec3F32; 3]) -> Vec3F32 {
    if wrong(Mutation::StlDoubled) {
        return doubled_normal([a, b, c]);
    }
    let cross = if wrong(Mutation::StlCrossTurned) {
        (c - a).cross(b - a)
    } else {
        (b - a).cross(c - a)
    };
    let length = cross.magnitude();
    if wrong(Mutation::StlZeroUnasked)
        || wrong(Mutation::StlZeroCross) && cross.to_arr() != [0.0; 3]
    {
        return cross * (1.0 / length);
    }
    if wrong(Mutation::StlDivided) && length != 0.0 {
        return Vec3F32::new(cross.x / length, cross.y / length, cross.z / length);
    }
    cross.to_normalized()
}

/// The mistake: the same in f64, rounded at the end.
fn doubled_normal(corners: [Vec3F32; 3]) -> Vec3F32 {
    let [a, b, c] = corners.map(|v| v.to_arr().map(f64::from));
    let [u, w] = [b, c].map(|p| [p[0] - a[0], p[1] - a[1], p[2] - a[2]]);
    let cross = [
        u[1] * w[2] - u[2] * w[1],
        u[2] * w[0] - u[0] * w[2],
        u[0] * w[1] - u[1] * w[0],
    ];
    let length = cross.iter().map(|x| x * x).sum::<f64>().sqrt();
    let unit = |x: f64| if length == 0.0 { 0.0 } else { x / length };
    let [x, y, z] = cross.map(|x| unit(x) as f32);
    Vec3F32::new(x, y, z)
}

/// '50 bytes a triangle (facet normal, three corners, u16 zero)'.
pub fn facet(b: &Buffers, i: u32) -> Vec<u8> {
    let at = 3 * i as usize;
    let [first, second, third] = [0, 1, 2].map(|j| b.triangles[at + j]);
    let mut corners = [first, second, third].map(|v| vector(&b.positions, v));
    let mut normal = facet_normal(corners);
    if wrong(Mutation::StlVertexNormal) {
        normal = vector(&b.normals, first);
    }
    if wrong(Mutation::StlTurnedOutward) {
        corners.swap(1, 2);
    }
    let [p, q, r] = corners;
    let vectors = if wrong(Mutation::StlCornersFirst) {
        [p, q, r, normal]
    } else {
        [normal, p, q, r]
    };
    let floats = vectors.into_iter().flat_map(Vec3F32::to_arr);
    let mut bytes: Vec<u8> = floats.flat_map(float_bytes).collect();
    bytes.extend([wrong(Mutation::StlAttributeOne) as u8, 0]);
    bytes
}

/// 'Write an accepted mesh, triangles in order, header all zero'.
fn file(b: &Buffers, t: u32) -> Vec<u8> {
    let mut bytes = vec![0; HEADER];
    if wrong(Mutation::StlHeaderNamed) {
        bytes[..5].copy_from_slice(b"solid");
    }
    bytes.extend(word_bytes(t));
    for i in 0..t {
        bytes.extend(facet(b, i));
    }
    bytes
}

/// The size of the file written into the lent bytes, or one refusal, which alters no place.
pub fn write_stl(b: &Buffers, c: Counts, lent: &mut [u8]) -> Result<u32, Refusal> {
    let size = size(c.t);
    let carried = if wrong(Mutation::StlEighteenCarriesT) {
        c.t
    } else {
        size as u32
    };
    let room = lent.len() as u64;
    let short = room < size || wrong(Mutation::StlRoomExclusive) && room == size;
    if wrong(Mutation::StlRoomFirst) && short {
        return Err(Refusal::new(NO_ROOM, carried));
    }
    // 'the writer gives 17 mesh buffers inconsistent, then 18 no room, with the size'.
    if consistent(b, c).is_none() {
        return Err(Refusal::new(INCONSISTENT, 0));
    }
    if short {
        if wrong(Mutation::StlWrittenOnEighteen) {
            lent[..(HEADER as u64).min(room) as usize].fill(0);
        }
        return Err(Refusal::new(NO_ROOM, carried));
    }
    if wrong(Mutation::StlRestCleared) {
        lent.fill(0);
    }
    let bytes = file(b, c.t);
    lent[..size as usize].copy_from_slice(&bytes[..size as usize]);
    Ok(size as u32)
}

// ── Reading ───────────────────────────────────────────────────────────────────

fn word_at(file: &[u8], at: usize) -> u32 {
    let bytes: [u8; 4] = file[at..at + 4].try_into().unwrap();
    if wrong(Mutation::StlBigEndian) {
        return u32::from_be_bytes(bytes);
    }
    u32::from_le_bytes(bytes)
}

/// T, where the file reaches so far.
fn count(file: &[u8]) -> Option<u32> {
    (file.len() >= HEADER + 4).then(|| word_at(file, HEADER))
}

/// '19 size not 84 + 50T': so also where there is no T.
fn size_agrees(file: &[u8], t: u32) -> bool {
    let (length, size) = (file.len() as u64, size(t));
    if wrong(Mutation::StlCountWraps) {
        return length == size % (1 << 32);
    }
    length == size || wrong(Mutation::StlTailPassed) && length > size
}

/// The mistakes of a reader that does not skip what it should.
fn looks_wrong(file: &[u8], t: u32) -> bool {
    let attribute = |i: usize| &file[HEADER + 4 + FACET * (i + 1) - 2..][..2];
    wrong(Mutation::StlSolidRefused) && file.starts_with(b"solid")
        || wrong(Mutation::StlHeaderRead) && file[..HEADER].iter().any(|&b| b != 0)
        || wrong(Mutation::StlAttributeRead) && (0..t as usize).any(|i| attribute(i) != [0, 0])
}

/// The number of facets, or 19.
fn facets(file: &[u8]) -> Result<u32, Refusal> {
    let refused = Refusal::new(NOT_STL, 0);
    let t = count(file).ok_or(refused)?;
    if !size_agrees(file, t) || looks_wrong(file, t) {
        return Err(refused);
    }
    Ok(t)
}

/// '9T corner floats and 3T normal floats in lent buffers', else 18 with T.
fn lists_have_room(t: u32, corners: &[f32], normals: &[f32]) -> Result<(), Refusal> {
    let more = wrong(Mutation::StlListRoomExclusive) as u64;
    let room = |places: &[f32], each: u64| each * t as u64 + more <= places.len() as u64;
    let normals_asked = !wrong(Mutation::StlNormalRoomUnasked);
    if !room(corners, 9) || normals_asked && !room(normals, 3) {
        return Err(Refusal::new(NO_ROOM, t));
    }
    Ok(())
}

/// Facet i to its places: the corners to 9i and on, the normal to 3i and on. A list that ends before them has as many as it holds, which is so
/// only of a mistake.
fn list(file: &[u8], i: usize, corners: &mut [f32], normals: &mut [f32]) {
    let float = |place: usize| f32::from_bits(word_at(file, HEADER + 4 + FACET * i + 4 * place));
    // The normal stands first, then the nine floats of the corners; 'the reader skips header and u16'.
    let (normal, corner) = if wrong(Mutation::StlNormalsAsCorners) {
        (9, 0)
    } else {
        (0, 3)
    };
    let fill = |list: &mut [f32], at: usize, from: usize, each: usize| {
        let places = list.iter_mut().skip(at).take(each);
        places.zip(from..).for_each(|(f, place)| *f = float(place));
    };
    fill(corners, 9 * i, corner, 9);
    fill(normals, 3 * i, normal, 3);
}

/// T, with every corner and every normal listed 'bit for bit as we wrote them', or one refusal, which alters no place.
pub fn read_stl(file: &[u8], corners: &mut [f32], normals: &mut [f32]) -> Result<u32, Refusal> {
    if wrong(Mutation::StlEighteenFirst)
        && let Some(t) = count(file)
    {
        lists_have_room(t, corners, normals)?;
    }
    // 'the reader gives 19 size not 84 + 50T, then 18, with T'.
    let t = facets(file)?;
    let room = lists_have_room(t, corners, normals);
    if wrong(Mutation::StlListedOnEighteen) && room.is_err() && t > 0 {
        list(file, 0, corners, normals);
    }
    room?;
    if wrong(Mutation::StlListsCleared) {
        corners.fill(0.0);
        normals.fill(0.0);
    }
    for i in 0..t as usize {
        list(file, i, corners, normals);
    }
    Ok(t)
}
