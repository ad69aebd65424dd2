//! Requests of the kind `stl`, half of each call: mesh buffers for the writer, right ones and ones spoiled in each way that 02 §4 has a word for,
//! and binary STL for the reader, right and damaged.

use crate::{
    calls::{build, list, needs},
    job::{RawJob, decode},
    jobs::{atom, plus, segment, small},
    protocol::{MOST, MOST_BYTES, MOST_FACETS, MeshWords, READ_STL, Request, buffers_before},
    rng::Rng,
    stl::{FACET, HEADER, size, write_stl},
    tied::tied,
    tubes::{MAX_VERTICES, triangles_of, vertices_of},
};

/// Floats at which arithmetic and bytes show: NaNs of several patterns, infinities, zeros of both signs, the least and the greatest, and those
/// whose products or squares are past f32 or nothing.
const ODD: [u32; 22] = [
    0x7FC0_0000,
    0xFFC0_0001,
    0x7F80_0001,
    0xFFFF_FFFF,
    0x7F80_0000,
    0xFF80_0000,
    0x0000_0000,
    0x8000_0000,
    0x0000_0001,
    0x8000_0001,
    0x007F_FFFF,
    0x0080_0000,
    0x7F7F_FFFF,
    0xFF7F_FFFF,
    // 1e38, -1e38, 2^63, 1e19, 1e-20, -1e-12
    0x7E96_7699,
    0xFE96_7699,
    0x5F00_0000,
    0x5F0A_C723,
    0x1E3C_E508,
    0xAB8C_BCCC,
    0x3F80_0000,
    0xBF80_0000,
];

/// Times 3, 5 or 50 these are small numbers modulo 2^32, or just past it.
const WRAPS: [u32; 8] = [
    1_431_655_766,
    2_863_311_531,
    858_993_460,
    3_435_973_837,
    85_899_346,
    1 << 31,
    u32::MAX - 1,
    u32::MAX,
];

/// A place among `n`, which is not 0.
fn any(rng: &mut Rng, n: usize) -> usize {
    rng.below(n as u64) as usize
}

// ── Meshes ────────────────────────────────────────────────────────────────────

/// A few short tubes, each a chain of its own.
fn short_chains(rng: &mut Rng) -> RawJob {
    let mut job = RawJob::default();
    for chain in 0..rng.pick(&[1, 1, 2, 2, 3]) {
        job.visible.push(1);
        let first = job.atoms.len() as u32;
        let mut p = [0; 3].map(|_| rng.real(-60.0, 60.0));
        for _ in 0..rng.pick(&[2, 2, 2, 3]) {
            let serial = job.atoms.len() as u32;
            job.atoms.push(atom(serial, 1, job.residues, chain, p));
            job.residues += 1;
            p = plus(p, rng.direction(), 3.8);
        }
        if rng.percent(40) {
            let last = job.atoms.len() as u32 - 1;
            let marked = segment(rng.below(3) as u8, first, last);
            job.segments.push(marked);
        }
    }
    job
}

/// The mesh of a job, in buffers that fit; of a job that is refused that of none.
fn built(job: &RawJob) -> MeshWords {
    let bytes = job.bytes();
    let Ok(decoded) = decode(&bytes) else {
        return built(&RawJob::default());
    };
    let tubes = list(&decoded);
    let needs = needs(tubes.k, tubes.v, tubes.t, job.residues as u64);
    let mut b = buffers_before(needs.map(|n| n as u32));
    let counts = build(&bytes, &mut b).expect("buffers that fit");
    MeshWords::of_buffers(counts, &b)
}

/// Coordinates of so many vertices: all odd, or of few values, so that facets vanish, or ordinary ones of any size.
fn coordinates(rng: &mut Rng, vertices: u64) -> Vec<u32> {
    let scale = rng.pick(&[
        1.0, 1.0, 100.0, 1e-6, 1e-10, 1e-11, 1e-12, 1e-23, 1e13, 1e18,
    ]);
    let style = rng.below(4);
    let mut one = || match style {
        0 => rng.pick(&ODD),
        1 => (scale * rng.below(2) as f32).to_bits(),
        _ => (scale * rng.real(-1.0, 1.0) as f32).to_bits(),
    };
    (0..3 * vertices).map(|_| one()).collect()
}

/// Tubes of so many residues each, consistent if none is of one alone, whose triangles have any corners of their own tube. What no rule is about
/// holds anything.
fn made(rng: &mut Rng, residues: &[u64]) -> MeshWords {
    let words = |rng: &mut Rng, n: u64| (0..n).map(|_| rng.word() as u32).collect::<Vec<_>>();
    let mut mesh = MeshWords {
        counts: [0; 3],
        lists: Default::default(),
    };
    let (mut v, mut t) = (0, 0);
    for &n in residues {
        let (kind, residue) = (rng.below(3) as u32, rng.word() as u32);
        mesh.lists[4].extend([kind, residue, n as u32, v as u32, t as u32]);
        let (vertices, triangles) = (vertices_of(n), triangles_of(n));
        mesh.lists[0].extend(coordinates(rng, vertices));
        let corners = (0..3 * triangles).map(|_| (v + rng.below(vertices)) as u32);
        mesh.lists[3].extend(corners);
        (v, t) = (v + vertices, t + triangles);
    }
    mesh.lists[1] = words(rng, 3 * v);
    mesh.lists[2] = words(rng, v);
    mesh.lists[5] = words(rng, 6 * residues.len() as u64);
    mesh.counts = [residues.len() as u32, v as u32, t as u32];
    mesh
}

/// Consistent buffers that fit.
fn mesh(rng: &mut Rng) -> MeshWords {
    match rng.below(20) {
        0 => built(&RawJob::default()),
        1 => built(&small(rng)),
        2 => built(&tied(rng)),
        3..=12 => built(&short_chains(rng)),
        13..=16 => made(rng, &[2]),
        17 => made(rng, &[3]),
        18 => made(rng, &[2, 2]),
        _ => made(rng, &[2, 3, 2]),
    }
}

/// A few coordinates made odd, or a few vertices moved onto others, which leaves facets of no area.
fn odd_positions(rng: &mut Rng, mesh: &mut MeshWords) {
    let places = mesh.lists[0].len();
    if places < 6 {
        return;
    }
    match rng.below(5) {
        0 => mesh.lists[0][0] = rng.pick(&ODD),
        1..=2 => (0..rng.between(1, 12)).for_each(|_| {
            mesh.lists[0][any(rng, places)] = rng.pick(&ODD);
        }),
        _ => {
            for _ in 0..rng.pick(&[1, 10, 60]) {
                let (from, to) = (3 * any(rng, places / 3), 3 * any(rng, places / 3));
                mesh.lists[0].copy_within(from..from + 3, to);
            }
        }
    }
}

// ── Inconsistent buffers ──────────────────────────────────────────────────────

/// So many places more in a buffer, of anything.
fn lengthen(rng: &mut Rng, mesh: &mut MeshWords, buffer: usize, places: u64) {
    let more = (0..places).map(|_| rng.word() as u32);
    mesh.lists[buffer].extend(more);
}

/// One of K, V, T by one, down or up; where it is up there is room for it, so that nothing but the sum is wrong.
fn count_by_one(rng: &mut Rng, mesh: &mut MeshWords, count: usize) {
    if rng.percent(50) {
        mesh.counts[count] = mesh.counts[count].wrapping_sub(1);
        return;
    }
    mesh.counts[count] += 1;
    let [k, v, t] = mesh.counts.map(u64::from);
    for (buffer, need) in needs(k, v, t, 0).into_iter().take(6).enumerate() {
        let places = mesh.lists[buffer].len() as u64;
        lengthen(rng, mesh, buffer, need.saturating_sub(places));
    }
    // A tube more that would fit, but for the sums.
    if count == 0 && rng.percent(50) {
        let at = 5 * (k as usize - 1);
        let [v, t] = [mesh.counts[1], mesh.counts[2]];
        mesh.lists[4][at..at + 5].copy_from_slice(&[0, 0, 2, v, t]);
    }
    // A triangle more of the last tube's corners.
    if count == 2 && rng.percent(50) {
        let at = 3 * (t as usize - 1);
        mesh.lists[3][at..at + 3].fill(mesh.counts[1].saturating_sub(1));
    }
}

/// A corner of some tube that is no vertex of its own: those next to it on both sides, V, and the last there is.
fn strange_corner(rng: &mut Rng, mesh: &mut MeshWords, tube: usize) {
    let [n, v, t] = [2, 3, 4].map(|j| mesh.lists[4][5 * tube + j] as u64);
    let end = v + vertices_of(n);
    // The first of its corners, the last, or any.
    let last = 3 * triangles_of(n) - 1;
    let at = 3 * t + rng.pick(&[0, last, last / 2, last - 1]);
    let past = mesh.counts[1];
    let before = (v as u32).wrapping_sub(1);
    let strange = rng.pick(&[end as u32, end as u32, before, before, past, u32::MAX]);
    // The boundary on the inside, which is right.
    let inside = rng.pick(&[v as u32, end as u32 - 1]);
    mesh.lists[3][at as usize] = if rng.percent(85) { strange } else { inside };
}

/// One word of a tube's record, by one or to its boundary.
fn strange_record(rng: &mut Rng, mesh: &mut MeshWords, tube: usize) {
    let record = &mut mesh.lists[4][5 * tube..5 * tube + 5];
    let by_one = rng.pick(&[1, u32::MAX]);
    match rng.below(6) {
        0 => record[0] = rng.pick(&[3, 3, 3, 255, u32::MAX]),
        1 => record[2] = rng.pick(&[0, 1, 16_384, 16_385, u32::MAX]),
        2 => record[2] = record[2].wrapping_add(by_one),
        3..=4 => record[3] = record[3].wrapping_add(by_one),
        _ => record[4] = record[4].wrapping_add(by_one),
    }
}

/// A buffer one place short of what K, V and T need.
fn shorten(rng: &mut Rng, mesh: &mut MeshWords) {
    let [k, v, t] = mesh.counts.map(u64::from);
    let buffer = any(rng, 6);
    let need = needs(k, v, t, 0)[buffer] as usize;
    mesh.lists[buffer].truncate(need.saturating_sub(1));
}

/// One thing, or rarely none, that makes the buffers inconsistent.
fn spoil(rng: &mut Rng, mesh: &mut MeshWords) {
    let tubes = mesh.counts[0] as usize;
    match rng.below(32) {
        0..=6 if tubes > 0 => {
            let tube = any(rng, tubes);
            strange_record(rng, mesh, tube);
        }
        7..=11 if tubes > 0 => {
            let tube = any(rng, tubes);
            strange_corner(rng, mesh, tube);
        }
        12..=15 => {
            let count = any(rng, 3);
            count_by_one(rng, mesh, count);
        }
        // No tube, which is wrong; and nothing at all, which is right whatever the buffers hold.
        16 if rng.percent(60) => mesh.counts[0] = 0,
        16 => mesh.counts = [0; 3],
        17 => {
            let of_one = rng.pick(&[&[1][..], &[1, 2], &[2, 1]]);
            *mesh = made(rng, of_one);
        }
        18 => {
            let past = MAX_VERTICES as u32 + rng.below(2) as u32;
            mesh.counts[1] = rng.pick(&[past, past, u32::MAX]);
        }
        19 => mesh.counts[any(rng, 3)] = rng.pick(&WRAPS),
        20 if tubes > 1 => {
            // Two tubes that have changed places.
            let at = 5 * any(rng, tubes - 1);
            mesh.lists[4][at..at + 10].rotate_left(5);
        }
        _ => shorten(rng, mesh),
    }
}

// ── Requests to write ─────────────────────────────────────────────────────────

/// Lent bytes at, below and above the file's size.
fn room(rng: &mut Rng, t: u32) -> u32 {
    let size = size(t).min(MOST_BYTES as u64);
    let room = match rng.below(20) {
        0..=10 => size,
        11..=13 => size + rng.between(1, 60),
        14..=15 => size - 1,
        16 => rng.pick(&[0, 0, 1, 83, 84, 85]),
        17 => size.saturating_sub(rng.pick(&[2, 49, 50, 51])),
        _ => rng.below(size + 1),
    };
    room as u32
}

/// A request that no program has to take, or the last that it has to.
fn at_the_arrays(rng: &mut Rng, mut mesh: MeshWords) -> Request {
    if rng.percent(40) {
        let full = rng.pick(&[4, 5, 4, 5, 2, 0, 1, 3]);
        let places = (MOST[full] + rng.below(2) as u32) as usize;
        mesh.lists[full].resize(places, 7);
    }
    let mut r = mesh.request(room(rng, mesh.counts[2].min(MOST_FACETS)));
    match rng.below(12) {
        0 => r.lengths[6] = MOST_BYTES as u32 + rng.below(2) as u32,
        1 => r.lengths[6] = u32::MAX,
        2..=3 => drop(r.bytes.pop()),
        4 => r.bytes.extend([0; 4]),
        5 => r.bytes.truncate(any(rng, r.bytes.len())),
        6 => r.lengths[any(rng, 6)] += 1,
        7 => r.lengths[any(rng, 6)] = u32::MAX,
        8 => r.bytes.resize(MOST_BYTES + rng.pick(&[0, 1, 4]), 0),
        _ => {}
    }
    r
}

fn write_request(rng: &mut Rng) -> Request {
    let mut mesh = mesh(rng);
    if rng.percent(40) {
        odd_positions(rng, &mut mesh);
    }
    // The room that the mesh would take, whatever K, V and T say afterwards.
    let t = mesh.counts[2];
    if rng.percent(8) && mesh.counts[0] > 0 {
        // Free: any first residue.
        let tube = any(rng, mesh.counts[0] as usize);
        mesh.lists[4][5 * tube + 1] = rng.pick(&[0, 16_384, 16_385, u32::MAX]);
    }
    if rng.percent(30) {
        for buffer in 0..6 {
            let places = rng.pick(&[0, 0, 1, 2, 7]);
            lengthen(rng, &mut mesh, buffer, places);
        }
    }
    if rng.percent(45) {
        spoil(rng, &mut mesh);
    }
    if rng.below(150) == 0 {
        return at_the_arrays(rng, mesh);
    }
    mesh.request(room(rng, t))
}

// ── Files ─────────────────────────────────────────────────────────────────────

/// What the writer makes of consistent buffers.
fn written(mesh: &MeshWords) -> Vec<u8> {
    let (counts, buffers) = mesh.buffers();
    let mut file = vec![0; size(counts.t) as usize];
    write_stl(&buffers, counts, &mut file).expect("a consistent mesh");
    file
}

/// A file of so many facets, of odd floats, of any words, or of both.
fn any_facets(rng: &mut Rng, t: u32) -> Vec<u8> {
    let odd = rng.pick(&[0, 30, 100]);
    let mut file = vec![0; HEADER];
    file.extend(t.to_le_bytes());
    for _ in 0..t {
        for _ in 0..12 {
            let any = rng.word() as u32;
            let word = if rng.percent(odd) {
                rng.pick(&ODD)
            } else {
                any
            };
            file.extend(word.to_le_bytes());
        }
        file.extend([0, 0]);
    }
    file
}

/// A few bytes around the sizes of no facet and of one, with a count that may agree.
fn few_bytes(rng: &mut Rng) -> Vec<u8> {
    let size = rng.pick(&[0, 1, 79, 80, 83, 84, 84, 85, 133, 134, 134, 135, 184]);
    let mut file: Vec<u8> = (0..size).map(|_| rng.word() as u8).collect();
    if let Some(field) = file.get_mut(HEADER..HEADER + 4) {
        field.copy_from_slice(&rng.pick(&[0u32, 0, 1, 1, 2]).to_le_bytes());
    }
    file
}

/// STL as text, which is none of ours: its size does not agree with what stands at byte 80.
fn text(rng: &mut Rng) -> Vec<u8> {
    let mut file = b"solid ribbon\n".to_vec();
    for _ in 0..rng.below(4) {
        file.extend(b"facet normal 0 0 1\nouter loop\nvertex 0 0 0\nvertex 1 0 0\nvertex 0 1 0\nendloop\nendfacet\n");
    }
    file.extend(b"endsolid ribbon\n");
    file
}

/// Any header and any u16s, which the reader skips.
fn stranger(rng: &mut Rng, file: &mut [u8]) {
    if file.len() < HEADER + 4 {
        return;
    }
    if rng.percent(70) {
        file[..HEADER].fill_with(|| rng.word() as u8);
    }
    if rng.percent(40) {
        file[..6].copy_from_slice(b"solid ");
    }
    for facet in file[HEADER + 4..].chunks_exact_mut(FACET) {
        if rng.percent(50) {
            facet[FACET - 2..].fill_with(|| rng.word() as u8);
        }
    }
}

/// A size that does not agree with its count: one of them by one, by a facet, or by much.
fn damage(rng: &mut Rng, file: &mut Vec<u8>) {
    let Some(field) = file.get_mut(HEADER..HEADER + 4) else {
        return;
    };
    let t = u32::from_le_bytes((&*field).try_into().unwrap());
    let other = match rng.below(9) {
        0 => t.wrapping_add(1),
        1 => t.wrapping_sub(1),
        // 50 times these is the same modulo 2^32, or nothing.
        2 => t.wrapping_add(1 << 31),
        3 => rng.pick(&[u32::MAX, 0, 1 << 31, 85_899_346]),
        4 => t.swap_bytes(),
        _ => t,
    };
    field.copy_from_slice(&other.to_le_bytes());
    if other != t {
        return;
    }
    match rng.below(6) {
        0..=1 => drop(file.pop()),
        2 => file.push(0),
        3 => file.extend([0; FACET]),
        4 => file.truncate(file.len().saturating_sub(FACET)),
        _ => file.truncate(any(rng, file.len() + 1)),
    }
}

fn file(rng: &mut Rng) -> Vec<u8> {
    let mut file = match rng.below(20) {
        0..=4 => {
            let mut mesh = mesh(rng);
            if rng.percent(30) {
                odd_positions(rng, &mut mesh);
            }
            written(&mesh)
        }
        5..=6 => few_bytes(rng),
        7 => text(rng),
        _ => {
            let t = rng.pick(&[0, 1, 1, 2, 3, 5, 9, 20]);
            any_facets(rng, t)
        }
    };
    if rng.percent(40) {
        stranger(rng, &mut file);
    }
    if rng.percent(25) {
        damage(rng, &mut file);
    }
    file
}

// ── Requests to read ──────────────────────────────────────────────────────────

/// Lent floats at, below and above what so many facets take.
fn lists(rng: &mut Rng, t: u64) -> [u64; 2] {
    let mut n = [9 * t, 3 * t];
    let one = any(rng, 2);
    match rng.below(20) {
        0..=9 => {}
        10..=12 => n = n.map(|l| l + rng.pick(&[0, 1, 2, 9])),
        13..=15 => n[one] = n[one].saturating_sub(1),
        16 => n[one] = 0,
        17 => n = [0, 0],
        // As many of the other.
        18 => n[one] = n[1 - one],
        _ => n[one] = rng.below(n[one] + 1),
    }
    n
}

fn read_request(rng: &mut Rng) -> Request {
    let file = match rng.below(2000) {
        0 => {
            let t = MOST_FACETS + rng.below(2) as u32;
            any_facets(rng, t)
        }
        _ => file(rng),
    };
    let facets = file.len().saturating_sub(HEADER + 4) / FACET;
    let [corners, normals] = lists(rng, facets as u64);
    let mut lengths = [0; 8];
    lengths[0] = corners.min(MOST[0] as u64) as u32;
    lengths[1] = normals.min(MOST[1] as u64) as u32;
    if rng.below(400) == 0 {
        let one = any(rng, 2);
        lengths[one] = rng.pick(&[MOST[one], MOST[one] + 1, u32::MAX]);
    }
    Request {
        call: READ_STL,
        lengths,
        k: 0,
        bytes: file,
    }
}

/// A request of call 5 or 6. What these do not look at, k and the other lengths, now and then holds something.
pub fn request(rng: &mut Rng) -> Request {
    let (mut r, unused) = if rng.percent(50) {
        (write_request(rng), 7..8)
    } else {
        (read_request(rng), 2..8)
    };
    if rng.percent(10) {
        r.k = rng.pick(&[1, 7, u32::MAX]);
        r.lengths[unused].fill_with(|| rng.pick(&[0, 1, 5, u32::MAX]));
    }
    r
}
