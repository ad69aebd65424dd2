//! 02 §4, sentence by sentence: what each reading settles, on the smallest mesh or file that shows it, and what the requests of the kind `stl` hold.

mod common;

use std::{fs, path::PathBuf};

use common::{build_in, built, fitting};
use oracle::{
    calls::{Buffers, Counts},
    cases::{six_residues, two_residues},
    generator::Kind,
    job::{RawJob, Refusal},
    protocol::{
        MOST, MOST_BYTES, MOST_FACETS, MeshWords, READ_STL, Request, TOO_LONG, WRITE_STL, answer,
        job_before,
    },
    stand_ins::Vec3F32,
    stl::{consistent, facet, facet_normal, read_stl, write_stl},
};

/// 01's two residues: 'Two residues give 7,284 bytes.'
const SIZE: usize = 7284;

fn two() -> (Counts, Buffers) {
    built(&two_residues())
}

/// Six residues, a helix over two of them: three tubes, of 74, 138 and 138 vertices.
fn three_tubes() -> (Counts, Buffers) {
    built(&six_residues())
}

fn written((c, b): &(Counts, Buffers)) -> Vec<u8> {
    let mut lent = vec![1; 84 + 50 * c.t as usize];
    let size = write_stl(b, *c, &mut lent).expect("a consistent mesh");
    assert_eq!(size as usize, lent.len());
    lent
}

/// 17 carries 0 and alters no byte, whatever room there is.
fn inconsistent((c, b): &(Counts, Buffers)) -> bool {
    let refused = consistent(b, *c).is_none();
    for room in [0, SIZE as u32 - 1, 30_000] {
        let mut lent = job_before(room);
        let answer = write_stl(b, *c, &mut lent);
        assert_eq!(answer == Err(Refusal::new(17, 0)), refused);
        assert!(!refused || lent == job_before(room));
    }
    refused
}

/// Whether this change alone makes the buffers of three tubes inconsistent.
fn spoiled(change: impl FnOnce(&mut Counts, &mut Buffers)) -> bool {
    let (mut c, mut b) = three_tubes();
    change(&mut c, &mut b);
    inconsistent(&(c, b))
}

fn le(file: &[u8], at: usize) -> u32 {
    u32::from_le_bytes(file[at..at + 4].try_into().unwrap())
}

fn floats_before(n: usize) -> Vec<f32> {
    (0..n)
        .map(|i| f32::from_bits(0x4000_0000 + i as u32))
        .collect()
}

fn bits(floats: &[f32]) -> Vec<u32> {
    floats.iter().map(|f| f.to_bits()).collect()
}

// ── The file ──────────────────────────────────────────────────────────────────

#[test]
fn two_residues_give_7284_bytes() {
    let file = written(&two());
    assert_eq!(file.len(), SIZE);
    // 'header all zero', then T in little-endian.
    assert_eq!(file[..80], [0; 80]);
    assert_eq!(file[80..84], [144, 0, 0, 0]);
    // The job of the example is this one.
    let example = PathBuf::from(env!("CARGO_MANIFEST_DIR")).join("../examples/two-residues.job");
    let bytes = fs::read(example).unwrap();
    let (counts, b) = build_in(&bytes, fitting(&bytes));
    assert_eq!(written(&(counts.unwrap(), b)), file);
}

/// '50 bytes a triangle (facet normal, three corners, u16 zero)', 'triangles in order'.
#[test]
fn facets_stand_as_the_triangles_do() {
    let mesh = two();
    let (c, b) = &mesh;
    let file = written(&mesh);
    for i in 0..c.t as usize {
        let at = 84 + 50 * i;
        for j in 0..3 {
            let vertex = b.triangles[3 * i + j] as usize;
            for axis in 0..3 {
                let word = le(&file, at + 12 + 12 * j + 4 * axis);
                assert_eq!(word, b.positions[3 * vertex + axis].to_bits());
            }
        }
        assert_eq!(file[at + 48..at + 50], [0, 0]);
        let normal = [0, 4, 8].map(|axis| f32::from_bits(le(&file, at + axis)));
        let length = normal.iter().map(|x| x * x).sum::<f32>();
        assert!((length - 1.0).abs() < 1e-5, "facet {i}");
    }
}

/// The first facet of the two residues: the start cap's centre (0,0,0) and two vertices of the first ring, which lies across x. The cross is 3D3504F3
/// along x, and so is its length; that times 1 / length, 41B504F3, is one step below 1. It is along +x, since tubes wind inward.
#[test]
fn the_first_facet_of_two_residues() {
    let mesh = two();
    assert_eq!(mesh.1.triangles[..3], [8, 1, 0]);
    let file = written(&mesh);
    let words: Vec<u32> = (0..12).map(|i| le(&file, 84 + 4 * i)).collect();
    assert_eq!(words[..3], [0x3F7F_FFFF, 0, 0]);
    assert_eq!(words[3..6], [0, 0, 0]);
    assert_eq!(words[6..9], [0, 0xBE35_04F3, 0xBE35_04F3]);
    assert_eq!(words[9..], [0, 0, 0xBE80_0000]);
}

/// The tubes' facets one after another are the file.
#[test]
fn the_file_is_its_tubes_one_after_another() {
    let mesh = three_tubes();
    let file = written(&mesh);
    let spans = consistent(&mesh.1, mesh.0).expect("a consistent mesh");
    assert_eq!(spans.len(), 3);
    let mut bytes = file[..84].to_vec();
    for span in spans {
        for i in span.triangles {
            bytes.extend(facet(&mesh.1, i as u32));
        }
    }
    assert_eq!(bytes, file);
}

#[test]
fn a_mesh_of_no_tubes_gives_84_bytes() {
    let mesh = built(&RawJob::default());
    assert_eq!(mesh.0, Counts { k: 0, v: 0, t: 0 });
    assert_eq!(written(&mesh), [0; 84]);
    let none = |k, v, t| inconsistent(&(Counts { k, v, t }, two().1));
    // Whatever the buffers hold.
    assert!(!none(0, 0, 0));
    assert!(none(0, 1, 0) && none(0, 0, 1) && none(0, 74, 144));
    assert!(!none(1, 74, 144));
}

// ── Normals ───────────────────────────────────────────────────────────────────

fn normal_of(corners: [[f32; 3]; 3]) -> [u32; 3] {
    let corners = corners.map(|[x, y, z]| Vec3F32::new(x, y, z));
    facet_normal(corners).to_arr().map(f32::to_bits)
}

/// 'the normalised cross of the second corner less the first and the third less the first'.
#[test]
fn a_facet_normal() {
    let one = 1f32.to_bits();
    assert_eq!(
        normal_of([[1.0, 1.0, 1.0], [3.0, 1.0, 1.0], [1.0, 4.0, 1.0]]),
        [0, 0, one]
    );
    // The other way round it points down; a product that is -0 less +0 is -0.
    assert_eq!(
        normal_of([[1.0, 1.0, 1.0], [1.0, 4.0, 1.0], [3.0, 1.0, 1.0]])[2],
        (-1f32).to_bits()
    );
    // Components times 1 / length, every step in f32: of (1, 2, 2), a length of 3, a third is 3EAAAAAB.
    assert_eq!(
        normal_of([[0.0; 3], [0.0, 1.0, -1.0], [-2.0, 1.0, 0.0]]),
        [0x3EAA_AAAB, 0x3F2A_AAAB, 0x3F2A_AAAB]
    );
}

/// 'length 0 gives zeros': all +0, also where the length is 0 by rounding alone.
#[test]
fn facets_of_length_0() {
    let p = [1.0, 2.0, -3.0];
    assert_eq!(normal_of([p, p, p]), [0; 3]);
    assert_eq!(normal_of([p, p, [4.0, 5.0, 6.0]]), [0; 3]);
    // On a line.
    assert_eq!(
        normal_of([[0.0; 3], [1.0, 2.0, 3.0], [-2.0, -4.0, -6.0]]),
        [0; 3]
    );
    // The cross is 1e-24, and its square nothing.
    assert_eq!(
        normal_of([[0.0; 3], [-1e-12, 0.0, 0.0], [0.0, 1e-12, 0.0]]),
        [0; 3]
    );
    // In a mesh: the second vertex of the first facet moved onto the first.
    let (c, mut b) = two();
    let [to, from] = [b.triangles[1], b.triangles[0]].map(|i| 3 * i as usize);
    b.positions.copy_within(from..from + 3, to);
    assert_eq!(written(&(c, b))[84..96], [0; 12]);
}

/// 'a NaN is written 7FC00000': corners and normals.
#[test]
fn a_nan_is_written_7fc00000() {
    let nan = [0x00, 0x00, 0xC0, 0x7F];
    for pattern in [0x7FC0_0000, 0xFFC0_0001, 0x7F80_0001, 0xFFFF_FFFF] {
        let (c, mut b) = two();
        b.positions[0] = f32::from_bits(pattern);
        // Made the first corner of the first facet.
        b.triangles[0] = 0;
        let file = written(&(c, b));
        assert_eq!(file[96..100], nan, "{pattern:08X}");
        assert_eq!(file[84..96], [nan; 3].concat());
    }
    // An infinity is written as it is; less itself it is no number.
    let (c, mut b) = two();
    b.positions[0] = f32::NEG_INFINITY;
    b.triangles[..3].copy_from_slice(&[0, 0, 1]);
    let file = written(&(c, b));
    assert_eq!(le(&file, 96), 0xFF80_0000);
    assert_eq!(le(&file, 84 + 4), 0x7FC0_0000);
}

/// Corners so far apart that the cross is past f32: inf times 1 / inf is no number, what is finite becomes 0.
#[test]
fn a_cross_past_f32() {
    let words = normal_of([[0.0; 3], [1e38, 0.0, 0.0], [0.0, 1e38, 0.0]]);
    assert_eq!(words[..2], [0, 0]);
    assert!(f32::from_bits(words[2]).is_nan());
    // The cross is finite here, its length is not.
    let words = normal_of([[0.0; 3], [1e15, 0.0, 0.0], [0.0, 1e15, 0.0]]);
    assert_eq!(words, [0; 3]);
}

// ── Consistent buffers ────────────────────────────────────────────────────────

#[test]
fn what_was_built_is_consistent() {
    assert!(!spoiled(|_, _| {}));
    // And stays so where there is more room, and where the first residue is another.
    assert!(!spoiled(|_, b| b.positions.push(7.0)));
    assert!(!spoiled(|_, b| {
        b.tubes.push(7);
        b.triangles.push(u32::MAX);
        b.boxes.push(f32::NAN);
    }));
    for residue in [0, 16_384, 16_385, u32::MAX] {
        assert!(!spoiled(|_, b| b.tubes[5 + 1] = residue));
    }
}

/// 'they have room for K, V and T': each of the six.
#[test]
fn a_place_less_is_inconsistent() {
    assert!(spoiled(|_, b| b.positions.truncate(b.positions.len() - 1)));
    assert!(spoiled(|_, b| b.normals.truncate(b.normals.len() - 1)));
    assert!(spoiled(|_, b| b.tags.truncate(b.tags.len() - 1)));
    assert!(spoiled(|_, b| b.triangles.truncate(b.triangles.len() - 1)));
    assert!(spoiled(|_, b| b.tubes.truncate(b.tubes.len() - 1)));
    assert!(spoiled(|_, b| b.boxes.truncate(b.boxes.len() - 1)));
}

#[test]
fn kinds_and_lengths() {
    for tube in [0, 1, 2] {
        assert!((0..=2).all(|kind| !spoiled(|_, b| b.tubes[5 * tube] = kind)));
        assert!(
            [3, 255, u32::MAX]
                .iter()
                .all(|&kind| spoiled(|_, b| b.tubes[5 * tube] = kind))
        );
        let lengths = [0, 1, 4, 5, 16_384, 16_385, u32::MAX];
        assert!(
            lengths
                .iter()
                .all(|&n| spoiled(|_, b| b.tubes[5 * tube + 2] = n))
        );
    }
}

/// One residue would make 10 vertices and 16 triangles.
#[test]
fn a_tube_of_one_residue_is_inconsistent() {
    let (_, mut b) = two();
    b.tubes[2] = 1;
    b.triangles.fill(0);
    assert!(inconsistent(&(Counts { k: 1, v: 10, t: 16 }, b)));
}

/// 'starts are the running sums from 0 and end at V and T'.
#[test]
fn starts_and_ends() {
    for tube in 0..3 {
        for word in [3, 4] {
            let at = 5 * tube + word;
            assert!(spoiled(|_, b| b.tubes[at] = b.tubes[at].wrapping_add(1)));
            assert!(spoiled(|_, b| b.tubes[at] = b.tubes[at].wrapping_sub(1)));
        }
    }
    // From 1 on, all of them.
    assert!(spoiled(|c, b| {
        b.tubes.chunks_mut(5).for_each(|tube| tube[3] += 1);
        b.triangles.iter_mut().for_each(|i| *i += 1);
        b.positions.extend([0.0; 3]);
        b.normals.extend([0.0; 3]);
        b.tags.push(0);
        c.v += 1;
    }));
    assert!(spoiled(|c, _| c.k -= 1) && spoiled(|c, _| c.v -= 1) && spoiled(|c, _| c.t -= 1));
    // With room for one more of each.
    let more = |b: &mut Buffers| {
        b.positions.extend([0.0; 3]);
        b.normals.extend([0.0; 3]);
        b.tags.push(0);
        b.triangles.extend([0; 3]);
        b.tubes.extend([0, 0, 2, 350, 688]);
        b.boxes.extend([0.0; 6]);
    };
    assert!(!spoiled(|_, b| more(b)));
    let up: [fn(&mut Counts); 3] = [|c| c.k += 1, |c| c.v += 1, |c| c.t += 1];
    for count in up {
        assert!(spoiled(|c, b| {
            more(b);
            count(c);
        }));
    }
}

/// 'each triangle's corners lie in its own tube': here vertices 0 to 73, 74 to 211 and 212 to 349.
#[test]
fn corners_of_their_own_tube() {
    let (_, b) = three_tubes();
    let starts: Vec<usize> = b.tubes.chunks(5).map(|t| 3 * t[4] as usize).collect();
    assert_eq!(starts, [0, 3 * 144, 3 * (144 + 272)]);
    let own = [0..74, 74..212, 212..350];
    for (start, own) in starts.into_iter().zip(own) {
        let corner = |i: u32| spoiled(|_, b| b.triangles[start] = i);
        assert!(!corner(own.start) && !corner(own.end - 1));
        assert!(corner(own.start.wrapping_sub(1)) && corner(own.end) && corner(u32::MAX));
    }
    // The last corner of the first tube, which may not be the next one's first vertex.
    assert!(spoiled(|_, b| b.triangles[3 * 144 - 1] = 74));
    assert!(!spoiled(|_, b| b.triangles[3 * 144] = 74));
}

/// K, V and T are any u32: nothing wraps.
#[test]
fn counts_that_would_wrap() {
    for count in [1 << 31, 858_993_460, 1_431_655_766, u32::MAX] {
        assert!(spoiled(|c, _| c.k = count));
        assert!(spoiled(|c, _| c.v = count));
        assert!(spoiled(|c, _| c.t = count));
    }
    assert!(spoiled(|c, _| c.v = 1_048_577));
}

/// 'V is within the limit', which is 1,048,576: the longest tube there can be is within it, one of 16,385 residues is past it by 10.
#[test]
fn the_limit_on_vertices() {
    let one = |n: u32, vertices: usize, triangles: usize| {
        let b = Buffers {
            positions: vec![0.0; 3 * vertices],
            normals: vec![0.0; 3 * vertices],
            tags: vec![0; vertices],
            triangles: vec![0; 3 * triangles],
            tubes: vec![0, 0, n, 0, 0],
            boxes: vec![0.0; 6],
            words: Vec::new(),
            floats: Vec::new(),
        };
        let c = Counts {
            k: 1,
            v: vertices as u32,
            t: triangles as u32,
        };
        consistent(&b, c).is_some()
    };
    assert!(one(16_384, 1_048_522, 2_097_040));
    assert!(!one(16_385, 1_048_586, 2_097_168));
}

// ── Room ──────────────────────────────────────────────────────────────────────

#[test]
fn room_for_the_file() {
    let (c, b) = two();
    let file = written(&(c, b.clone()));
    for more in [0, 1, 50] {
        let room = (SIZE + more) as u32;
        let mut lent = job_before(room);
        assert_eq!(write_stl(&b, c, &mut lent), Ok(SIZE as u32));
        assert_eq!(lent[..SIZE], file);
        assert_eq!(lent[SIZE..], job_before(room)[SIZE..]);
    }
    for room in [0, 83, 84, SIZE as u32 - 1] {
        let mut lent = job_before(room);
        let answer = write_stl(&b, c, &mut lent);
        assert_eq!(answer, Err(Refusal::new(18, SIZE as u32)));
        assert_eq!(lent, job_before(room));
    }
    // 17 comes first.
    let mut none = b;
    none.tubes[0] = 3;
    assert_eq!(write_stl(&none, c, &mut []), Err(Refusal::new(17, 0)));
}

// ── Reading ───────────────────────────────────────────────────────────────────

/// What a file gives in lists that it fills, or the refusal.
fn listed(file: &[u8], t: usize) -> Result<(Vec<u32>, Vec<u32>), Refusal> {
    let (mut corners, mut normals) = (floats_before(9 * t), floats_before(3 * t));
    assert_eq!(read_stl(file, &mut corners, &mut normals)? as usize, t);
    Ok((bits(&corners), bits(&normals)))
}

/// 'A reader lists 9T corner floats and 3T normal floats in lent buffers, bit for bit as we wrote them.'
#[test]
fn a_file_read_back() {
    let (c, mut b) = three_tubes();
    // Floats that a careless reader would change.
    let odd = [0x8000_0000, 0x0000_0001, 0x7F80_0000, 0x7FC0_0000];
    for (position, word) in b.positions.iter_mut().zip(odd) {
        *position = f32::from_bits(word);
    }
    let file = written(&(c, b.clone()));
    let (corners, normals) = listed(&file, c.t as usize).unwrap();
    for (i, triangle) in b.triangles.chunks(3).enumerate() {
        for (j, &vertex) in triangle.iter().enumerate() {
            let position = &b.positions[3 * vertex as usize..][..3];
            assert_eq!(corners[9 * i + 3 * j..][..3], bits(position));
        }
        for axis in 0..3 {
            assert_eq!(normals[3 * i + axis], le(&file, 84 + 50 * i + 4 * axis));
        }
    }
}

/// 'the reader skips header and u16'.
#[test]
fn header_and_u16_are_free() {
    let mesh = two();
    let file = written(&mesh);
    let mut other = file.clone();
    other[..80].fill(0xFF);
    other[..6].copy_from_slice(b"solid ");
    for facet in other[84..].chunks_mut(50) {
        facet[48..].fill(0xFF);
    }
    assert_eq!(listed(&other, 144), listed(&file, 144));
}

/// A file of so many bytes, with this count where it reaches so far.
fn zeros(size: usize, t: u32) -> Vec<u8> {
    let mut file = vec![0; size];
    if let Some(field) = file.get_mut(80..84) {
        field.copy_from_slice(&t.to_le_bytes());
    }
    file
}

/// '19 size not 84 + 50T', which carries 0; and nothing wraps.
#[test]
fn sizes() {
    let number = |size: usize, t: u32| {
        let (mut corners, mut normals) = (floats_before(18), floats_before(6));
        match read_stl(&zeros(size, t), &mut corners, &mut normals) {
            Ok(n) => {
                assert_eq!(n, t);
                0
            }
            Err(r) => {
                assert_eq!(r, Refusal::new(19, 0));
                assert_eq!((corners, normals), (floats_before(18), floats_before(6)));
                r.number
            }
        }
    };
    assert_eq!(
        [0, 79, 80, 83, 84, 85].map(|n| number(n, 0)),
        [19, 19, 19, 19, 0, 19]
    );
    assert_eq!([84, 133, 134, 135].map(|n| number(n, 1)), [19, 19, 0, 19]);
    assert_eq!([134, 184].map(|n| number(n, 2)), [19, 0]);
    // 50 times these is 0 or 50 modulo 2^32.
    assert_eq!(number(84, 1 << 31), 19);
    assert_eq!(number(134, (1 << 31) + 1), 19);
    assert_eq!(number(84, u32::MAX), 19);
    // A big-endian 1.
    assert_eq!(number(134, 1 << 24), 19);
}

#[test]
fn stl_as_text_is_refused() {
    let mut text = b"solid ribbon\n".to_vec();
    assert_eq!(listed(&text, 0), Err(Refusal::new(19, 0)));
    text.extend(b"facet normal 0 0 1\nouter loop\nvertex 0 0 0\nvertex 1 0 0\nvertex 0 1 0\nendloop\nendfacet\n");
    text.extend(b"endsolid ribbon\n");
    assert!(text.len() > 84);
    assert_eq!(listed(&text, 0), Err(Refusal::new(19, 0)));
}

/// 'then 18, with T'.
#[test]
fn room_for_the_floats() {
    let file = zeros(184, 2);
    let read = |file: &[u8], corners: usize, normals: usize| {
        let (mut c, mut n) = (floats_before(corners), floats_before(normals));
        let answer = read_stl(file, &mut c, &mut n);
        let written = if answer.is_ok() { 2 } else { 0 };
        // Places past what is written stay; a refusal writes none.
        assert_eq!(c[9 * written..], floats_before(corners)[9 * written..]);
        assert_eq!(n[3 * written..], floats_before(normals)[3 * written..]);
        answer
    };
    assert_eq!(read(&file, 18, 6), Ok(2));
    assert_eq!(read(&file, 20, 9), Ok(2));
    for (corners, normals) in [(17, 6), (18, 5), (0, 6), (18, 0), (0, 0), (6, 18)] {
        assert_eq!(read(&file, corners, normals), Err(Refusal::new(18, 2)));
    }
    // 19 comes first.
    assert_eq!(read(&file[..183], 0, 0), Err(Refusal::new(19, 0)));
    assert_eq!(read_stl(&zeros(84, 0), &mut [], &mut []), Ok(0));
}

// ── The stream ────────────────────────────────────────────────────────────────

fn write_request() -> Request {
    let (c, b) = two();
    MeshWords::of_buffers(c, &b).request(SIZE as u32 + 1)
}

#[test]
fn the_answer_to_a_write() {
    let mut r = write_request();
    let a = answer(&r);
    assert_eq!(a[..4], [0, SIZE as u32, 0, 0]);
    let file: Vec<u32> = written(&two()).iter().map(|&b| b as u32).collect();
    assert_eq!(a[4..4 + SIZE], file);
    // The last lent byte stays: (7284 + 165) % 256.
    assert_eq!(a[4 + SIZE..], [25]);
    // k and the scratch floats are not looked at.
    r.k = u32::MAX;
    r.lengths[7] = u32::MAX;
    assert_eq!(answer(&r), a);
}

#[test]
fn the_answer_to_a_read() {
    let mut file = zeros(134, 1);
    // The normal's x and the first corner's: another NaN, and 1.
    file[84..88].copy_from_slice(&0xFFC0_0001u32.to_le_bytes());
    file[96..100].copy_from_slice(&1f32.to_bits().to_le_bytes());
    let mut r = Request {
        call: READ_STL,
        lengths: [10, 4, 0, 0, 0, 0, 0, 0],
        k: 0,
        bytes: file,
    };
    let a = answer(&r);
    assert_eq!(a[..5], [0, 1, 0, 0, 0x3F80_0000]);
    assert_eq!(a[5..13], [0; 8]);
    assert_eq!(a[13..15], [0x4000_0009, 0x7FC0_0000]);
    assert_eq!(a[15..], [0, 0, 0x4000_0003]);
    r.k = 9;
    r.lengths[2..].fill(u32::MAX);
    assert_eq!(answer(&r), a);
}

/// A length past the arrays, and bytes that are not those of the lengths.
#[test]
fn what_is_passed_over() {
    let good = write_request();
    let with = |change: &dyn Fn(&mut Request)| {
        let mut r = good.clone();
        change(&mut r);
        answer(&r) == [TOO_LONG]
    };
    assert!(!with(&|r| r.lengths[6] = MOST_BYTES as u32));
    assert!(with(&|r| r.lengths[6] = MOST_BYTES as u32 + 1));
    assert!(with(&|r| r.bytes.truncate(3855)) && with(&|r| r.bytes.push(0)));
    assert!(with(&|r| r.bytes.clear()));
    assert!((0..6).all(|i| with(&|r| r.lengths[i] += 1)));
    for (i, most) in MOST.into_iter().enumerate().take(6) {
        let full = |places: u32| {
            let mut mesh = MeshWords::of(&good).unwrap();
            mesh.lists[i].resize(places as usize, 0);
            answer(&mesh.request(0))[0]
        };
        assert_eq!(full(most), 18, "buffer {i}");
        assert_eq!(full(most + 1), TOO_LONG, "buffer {i}");
    }
}

/// The longest file that a request holds is listed whole.
#[test]
fn the_longest_file() {
    let read = |t: u32, lengths: [u32; 2]| {
        let [corners, normals] = lengths;
        answer(&Request {
            call: READ_STL,
            lengths: [corners, normals, 0, 0, 0, 0, 0, 0],
            k: 0,
            bytes: zeros(84 + 50 * t as usize, t),
        })
    };
    let t = MOST_FACETS;
    assert!(9 * t <= MOST[0] && 3 * t <= MOST[1]);
    let a = read(t, [9 * t, 3 * t]);
    assert_eq!(a[..4], [0, t, 0, 0]);
    assert!(a[4..].iter().all(|&w| w == 0));
    assert_eq!(read(t + 1, [0, 0]), [TOO_LONG]);
    assert_eq!(read(0, [MOST[0], MOST[1]])[0], 0);
    assert_eq!(read(0, [MOST[0] + 1, 0]), [TOO_LONG]);
    assert_eq!(read(0, [0, MOST[1] + 1]), [TOO_LONG]);
}

// ── The requests of the kind `stl` ────────────────────────────────────────────

const SEED: u64 = 19;
const REQUESTS: u64 = 3000;

/// Each answer of both calls is frequent, and a refusal alters nothing.
#[test]
fn requests_for_stl_give_every_answer() {
    let mut seen = std::collections::BTreeMap::new();
    for i in 0..REQUESTS {
        let r = Kind::Stl.request(SEED, i);
        assert_eq!(Kind::Stl.request(SEED, i), r);
        let a = answer(&r);
        *seen.entry((r.call, a[0])).or_insert(0) += 1;
        if r.call == WRITE_STL && a[0] != TOO_LONG {
            let kept = if a[0] == 0 { a[1] as usize } else { 0 };
            let before = job_before(r.lengths[6]);
            let lent = a[4 + kept..].iter().map(|&b| b as u8);
            assert!(lent.eq(before[kept..].iter().copied()), "request {i}");
        }
    }
    let wanted = [
        ((WRITE_STL, 0), 400),
        ((WRITE_STL, 17), 400),
        ((WRITE_STL, 18), 150),
        ((READ_STL, 0), 400),
        ((READ_STL, 18), 150),
        ((READ_STL, 19), 300),
        ((WRITE_STL, TOO_LONG), 1),
    ];
    for (answer, least) in wanted {
        let count = seen.get(&answer).copied().unwrap_or(0);
        assert!(count >= least, "{answer:?}: {seen:?}");
    }
}

/// Both at once, for each call: inconsistent or of the wrong size, and no room.
#[test]
fn requests_for_stl_have_two_refusals_to_choose_from() {
    let (mut writes, mut reads) = (0, 0);
    for r in (0..REQUESTS).map(|i| Kind::Stl.request(SEED, i)) {
        match (r.call, answer(&r)[0]) {
            (WRITE_STL, 17) => {
                let t = MeshWords::of(&r).expect("words").counts[2] as u64;
                writes += ((r.lengths[6] as u64) < 84 + 50 * t) as u64;
            }
            (READ_STL, 19) if r.bytes.len() >= 84 => {
                let t = le(&r.bytes, 80) as u64;
                let short = (r.lengths[0] as u64) < 9 * t || (r.lengths[1] as u64) < 3 * t;
                reads += short as u64;
            }
            _ => {}
        }
    }
    assert!(writes >= 100 && reads >= 100, "{writes} {reads}");
}

/// What is written holds NaNs, infinities, both zeros, subnormals, facets of length 0, and more tubes than one.
#[test]
fn requests_for_stl_hold_odd_floats() {
    let mut seen = [0; 7];
    for r in (0..REQUESTS).map(|i| Kind::Stl.request(SEED, i)) {
        let a = answer(&r);
        if r.call != WRITE_STL || a[0] != 0 {
            continue;
        }
        let mesh = MeshWords::of(&r).expect("words");
        let file: Vec<u8> = a[4..].iter().map(|&b| b as u8).collect();
        let mut here = [false; 7];
        here[0] = mesh.counts[0] > 1;
        for i in 0..mesh.counts[2] as usize {
            let float = |j: usize| f32::from_bits(le(&file, 84 + 50 * i + 4 * j));
            let corners: Vec<f32> = (3..12).map(float).collect();
            let normal = [0, 1, 2].map(float);
            here[1] |= corners.iter().any(|f| f.is_nan());
            here[2] |= corners.iter().any(|f| f.is_infinite());
            here[3] |= corners.iter().any(|f| f.to_bits() == 1 << 31);
            here[4] |= corners.iter().any(|f| f.is_subnormal());
            here[5] |= normal.iter().all(|f| f.to_bits() == 0);
            // No corner is a NaN or infinite, and the normal is.
            here[6] |= corners.iter().all(|f| f.is_finite()) && normal.iter().any(|f| f.is_nan());
        }
        for (count, is) in seen.iter_mut().zip(here) {
            *count += is as u64;
        }
    }
    assert!(seen.iter().all(|&n| n >= 20), "{seen:?}");
}
