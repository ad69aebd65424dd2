//! Times the proved writer and reader of binary STL and plain Rust ones on the same meshes. The plain ones stand in two forms each: `vec` pushes
//! onto a vector that has its room already, `slice` fills a slice in pieces. Neither checks the mesh, and neither looks for a NaN; ours does
//! both, inside its figure. Buffers are allocated once, and not cleared between runs. Each figure is the fastest of its runs.

use std::hint::black_box;

use bench::{Serials, fastest, fitting, proved_build, room};
use oracle::calls::Buffers;

unsafe extern "C" {
    fn ribbon_write_stl(
        positions: *const f32, positions_len: usize, normals: *const f32, normals_len: usize, tags: *const u32, tags_len: usize,
        triangles: *const u32, triangles_len: usize, tubes: *const u32, tubes_len: usize, boxes: *const f32, boxes_len: usize,
        k: usize, v: usize, t: usize, stl: *mut u8, stl_len: usize, answer: *mut [u32; 4],
    );
    fn ribbon_read_stl(
        file: *const u8, file_len: usize, corners: *mut f32, corners_len: usize, normals: *mut f32, normals_len: usize,
        answer: *mut [u32; 4],
    );
}

fn proved_write(b: &Buffers, [k, v, t]: [usize; 3], stl: &mut [u8]) -> [u32; 4] {
    let mut answer = [0; 4];
    // Each vector lends its whole length, and no two overlap.
    unsafe {
        ribbon_write_stl(
            b.positions.as_ptr(), b.positions.len(), b.normals.as_ptr(), b.normals.len(), b.tags.as_ptr(), b.tags.len(),
            b.triangles.as_ptr(), b.triangles.len(), b.tubes.as_ptr(), b.tubes.len(), b.boxes.as_ptr(), b.boxes.len(), k, v, t,
            stl.as_mut_ptr(), stl.len(), &mut answer,
        );
    }
    answer
}

fn proved_read(file: &[u8], corners: &mut [f32], normals: &mut [f32]) -> [u32; 4] {
    let mut answer = [0; 4];
    unsafe {
        ribbon_read_stl(
            file.as_ptr(), file.len(), corners.as_mut_ptr(), corners.len(), normals.as_mut_ptr(), normals.len(), &mut answer,
        );
    }
    answer
}

// ── The plain writer ──────────────────────────────────────────────────────────

#[derive(Clone, Copy)]
struct Vec3 {
    x: f32,
    y: f32,
    z: f32,
}

impl Vec3 {
    fn sub(self, b: Self) -> Self {
        Self { x: self.x - b.x, y: self.y - b.y, z: self.z - b.z }
    }

    fn cross(self, b: Self) -> Self {
        Self { x: self.y * b.z - self.z * b.y, y: self.z * b.x - self.x * b.z, z: self.x * b.y - self.y * b.x }
    }

    fn normalised(self) -> Self {
        let length = (self.x * self.x + self.y * self.y + self.z * self.z).sqrt();
        if length == 0.0 {
            return Self { x: 0.0, y: 0.0, z: 0.0 };
        }
        let by = 1.0 / length;
        Self { x: self.x * by, y: self.y * by, z: self.z * by }
    }
}

fn normal(a: Vec3, b: Vec3, c: Vec3) -> Vec3 {
    b.sub(a).cross(c.sub(a)).normalised()
}

fn vertex(positions: &[f32], i: u32) -> Vec3 {
    let at = 3 * i as usize;
    Vec3 { x: positions[at], y: positions[at + 1], z: positions[at + 2] }
}

fn push(out: &mut Vec<u8>, v: Vec3) {
    out.extend_from_slice(&v.x.to_le_bytes());
    out.extend_from_slice(&v.y.to_le_bytes());
    out.extend_from_slice(&v.z.to_le_bytes());
}

fn write_vec(positions: &[f32], triangles: &[u32], out: &mut Vec<u8>) {
    out.clear();
    out.reserve(84 + 50 * (triangles.len() / 3));
    out.extend_from_slice(&[0; 80]);
    out.extend_from_slice(&(triangles.len() as u32 / 3).to_le_bytes());
    for triangle in triangles.chunks_exact(3) {
        let a = vertex(positions, triangle[0]);
        let b = vertex(positions, triangle[1]);
        let c = vertex(positions, triangle[2]);
        push(out, normal(a, b, c));
        push(out, a);
        push(out, b);
        push(out, c);
        out.extend_from_slice(&[0; 2]);
    }
}

fn put(out: &mut [u8], v: Vec3) {
    out[..4].copy_from_slice(&v.x.to_le_bytes());
    out[4..8].copy_from_slice(&v.y.to_le_bytes());
    out[8..12].copy_from_slice(&v.z.to_le_bytes());
}

fn write_slice(positions: &[f32], triangles: &[u32], out: &mut [u8]) {
    let (head, facets) = out.split_at_mut(84);
    head[..80].fill(0);
    head[80..].copy_from_slice(&(triangles.len() as u32 / 3).to_le_bytes());
    for (triangle, facet) in triangles.chunks_exact(3).zip(facets.chunks_exact_mut(50)) {
        let a = vertex(positions, triangle[0]);
        let b = vertex(positions, triangle[1]);
        let c = vertex(positions, triangle[2]);
        put(&mut facet[..12], normal(a, b, c));
        put(&mut facet[12..24], a);
        put(&mut facet[24..36], b);
        put(&mut facet[36..48], c);
        facet[48..].fill(0);
    }
}

// ── The plain reader ──────────────────────────────────────────────────────────

/// The facets' bytes, where the file is as long as its count says.
fn facets(file: &[u8]) -> Option<&[u8]> {
    let t = u32::from_le_bytes(file.get(80..84)?.try_into().ok()?);
    (file.len() == 84 + 50 * t as usize).then(|| &file[84..])
}

fn float(bytes: &[u8]) -> f32 {
    f32::from_le_bytes(bytes.try_into().unwrap())
}

fn read_vec(file: &[u8], corners: &mut Vec<f32>, normals: &mut Vec<f32>) -> Option<()> {
    corners.clear();
    normals.clear();
    for facet in facets(file)?.chunks_exact(50) {
        normals.extend(facet[..12].chunks_exact(4).map(float));
        corners.extend(facet[12..48].chunks_exact(4).map(float));
    }
    Some(())
}

fn read_slice(file: &[u8], corners: &mut [f32], normals: &mut [f32]) -> Option<()> {
    let lists = corners.chunks_exact_mut(9).zip(normals.chunks_exact_mut(3));
    for (facet, (corners, normals)) in facets(file)?.chunks_exact(50).zip(lists) {
        for i in 0..3 {
            normals[i] = float(&facet[4 * i..4 * i + 4]);
        }
        for i in 0..9 {
            corners[i] = float(&facet[12 + 4 * i..16 + 4 * i]);
        }
    }
    Some(())
}

// ── The table ─────────────────────────────────────────────────────────────────

/// The greatest ratios that are asked for, of writing and of reading.
const GOALS: [f64; 2] = [1.5, 1.2];

fn bits(floats: &[f32]) -> impl Iterator<Item = u32> {
    floats.iter().map(|x| x.to_bits())
}

/// The file of a mesh, the same by all three writers, and their times in microseconds: ours, vec, slice.
fn write(b: &Buffers, counts: [usize; 3]) -> (Vec<u8>, [f64; 3]) {
    let size = 84 + 50 * counts[2];
    let (mut ours, mut vec, mut slice) = (vec![1; size], Vec::with_capacity(size), vec![2; size]);
    assert_eq!(proved_write(b, counts, &mut ours), [0, size as u32, 0, 0]);
    write_vec(&b.positions, &b.triangles, &mut vec);
    write_slice(&b.positions, &b.triangles, &mut slice);
    assert!(ours == vec && ours == slice, "the files differ");
    let times = fastest([
        &mut || { black_box(proved_write(black_box(b), counts, &mut ours)); },
        &mut || { write_vec(black_box(&b.positions), &b.triangles, &mut vec); black_box(&vec); },
        &mut || { write_slice(black_box(&b.positions), &b.triangles, &mut slice); black_box(&slice); },
    ]);
    (ours, times)
}

/// The times of the three readers, whose lists are the same: ours, vec, slice.
fn read(file: &[u8], t: usize) -> [f64; 3] {
    let lists = || (vec![1.0f32; 9 * t], vec![1.0f32; 3 * t]);
    let (mut ours, mut vec, mut slice) = (lists(), lists(), lists());
    assert_eq!(proved_read(file, &mut ours.0, &mut ours.1), [0, t as u32, 0, 0]);
    read_vec(file, &mut vec.0, &mut vec.1).expect("a file");
    read_slice(file, &mut slice.0, &mut slice.1).expect("a file");
    for other in [&vec, &slice] {
        assert!(bits(&ours.0).eq(bits(&other.0)) && bits(&ours.1).eq(bits(&other.1)), "the lists differ");
    }
    fastest([
        &mut || { black_box(proved_read(black_box(file), &mut ours.0, &mut ours.1)); },
        &mut || { read_vec(black_box(file), &mut vec.0, &mut vec.1); black_box(&vec); },
        &mut || { read_slice(black_box(file), &mut slice.0, &mut slice.1); black_box(&slice); },
    ])
}

/// A half of a row, and its ratios to vec and to slice.
fn half(t: usize, [ours, vec, slice]: [f64; 3]) -> [f64; 2] {
    let ratios = [ours / vec, ours / slice];
    let [ms, ms_vec, ms_slice] = [ours, vec, slice].map(|time| time / 1e3);
    let ns = ours * 1e3 / t as f64;
    print!(" {ms:>9.3} {ms_vec:>8.3} {ms_slice:>8.3} {:>7.2} {:>8.2} {ns:>6.1}", ratios[0], ratios[1]);
    ratios
}

/// The ratios of writing and of reading, to vec and to slice each.
fn row(residues: u16, segments: u16) -> [[f64; 2]; 2] {
    let (_, bytes, counts) = fitting(residues, 3, segments, Serials::Ascend);
    let [k, v, t] = counts;
    let mut mesh = room(v, t, k, residues);
    assert_eq!(proved_build(&bytes, &mut mesh)[0], 0);
    print!("{residues:>6} {k:>6} {v:>8} {t:>8}");
    let (file, times) = write(&mesh, counts);
    let ratios = [half(t, times), half(t, read(&file, t))];
    println!();
    ratios
}

/// One line for each goal and each form.
fn judge(rows: &[[[f64; 2]; 2]]) {
    for (call, name) in ["writing", "reading"].into_iter().enumerate() {
        for (form, to) in ["vec", "slice"].into_iter().enumerate() {
            let ratios = || rows.iter().map(|row| row[call][form]);
            let (least, greatest) = (ratios().fold(f64::INFINITY, f64::min), ratios().fold(0.0, f64::max));
            let missed = ratios().filter(|&ratio| ratio > GOALS[call]).count();
            let verdict = match missed {
                0 => "met".to_string(),
                n => format!("MISSED in {n} of {} rows", rows.len()),
            };
            println!("{name}, to {to}: {least:.2} to {greatest:.2}; the goal of {} is {verdict}", GOALS[call]);
        }
    }
}

fn main() {
    if cfg!(not(target_arch = "x86_64")) {
        println!("programs are compiled for x86-64 and emulated here, so a time measured here says nothing");
        return;
    }
    println!("milliseconds; R residues, K tubes, V vertices, T facets; ns is ours by facet");
    let half = |name: &str| format!(" {name:>9} {:>8} {:>8} {:>7} {:>8} {:>6}", "vec", "slice", "to vec", "to slice", "ns");
    println!("{:>6} {:>6} {:>8} {:>8}{}{}", "R", "K", "V", "T", half("write"), half("read"));
    let sizes = [(300, 20), (2000, 20), (16_384, 0), (16_384, 20), (16_384, 2000)];
    judge(&sizes.map(|(residues, segments)| row(residues, segments)));
}
