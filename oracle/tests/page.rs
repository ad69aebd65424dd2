//! 01's own sentences on tubes, tags, triangles and caps, read plainly and by residue (`common/reading.rs`), give what document 000 gives, and so do
//! 02 §2's on boxes, read plainly over the positions that were built, and 02 §6's on an end cap, over spline points made anew. So a reading of the
//! page that differs from the Rust would show here.

mod common;

use common::{
    built,
    reading::{direction, end_normal, last_chord, spline_points, start_normal, tubes},
};
use oracle::{
    calls::list, caps::capped, job::decode, jobs::job, rng::Rng, tied::tied, tubes::MAX_VERTICES,
};

/// 'A box is the least and greatest .. coordinate on each axis ..; the earlier of equals is kept', and by 02 §2 it 'takes the vertices of its
/// tube, caps included': the first coordinate that none is below, and the first that none is above.
fn box_bits(positions: &[f32], [_, _, n, vertex, _]: [u32; 5]) -> [u32; 6] {
    let own = &positions[3 * vertex as usize..][..3 * (64 * n as usize - 54)];
    std::array::from_fn(|i| {
        let axis = || own.iter().skip(i % 3).step_by(3);
        let kept = |x: &&f32| axis().all(|y| if i < 3 { *x <= y } else { *x >= y });
        axis().find(kept).expect("no NaN").to_bits()
    })
}

/// 'Vertices: ring, start centre, later rings, end centre.' The first vertex of ring `s`.
fn ring(s: u32) -> u32 {
    if s == 0 { 0 } else { 1 + 8 * s }
}

/// 'Tag: first residue + i, one more if t is at least 0.5; start centre as its ring; end centre: the last residue.'
fn tags(first: u32, n: u32) -> Vec<u32> {
    let mut out = vec![first; 9];
    for s in 1..=8 * (n - 1) {
        let (i, eighths) = if s == 8 * (n - 1) {
            (n - 2, 8)
        } else {
            (s / 8, s % 8)
        };
        out.extend([first + i + (eighths >= 4) as u32; 8]);
    }
    out.push(first + n - 1);
    out
}

/// As 01's first triangles go on: start cap, bands, end cap.
fn triangles(n: u32) -> Vec<[u32; 3]> {
    let next = |k: u32| (k + 1) % 8;
    let mut out: Vec<[u32; 3]> = (0..8).map(|k| [8, next(k), k]).collect();
    let last = 8 * (n - 1);
    for s in 0..last {
        let (a, b) = (ring(s), ring(s + 1));
        for k in 0..8 {
            out.push([a + k, b + next(k), b + k]);
            out.push([a + k, a + next(k), b + next(k)]);
        }
    }
    let end = ring(last) + 8;
    out.extend((0..8).map(|k| [end, ring(last) + k, ring(last) + next(k)]));
    out
}

#[test]
fn the_page_gives_the_same_tubes() {
    let mut compared = 0;
    for i in 0..20_000 {
        let job = job(&mut Rng::new(21, i));
        // The plain reading is slow, so the largest jobs are left to the other tests.
        let Ok(decoded) = decode(&job.bytes()) else {
            continue;
        };
        if job.atoms.len() * job.residues as usize > 20_000 {
            continue;
        }
        let listed = list(&decoded);
        if listed.v > MAX_VERTICES {
            continue;
        }
        let (mut v, mut t) = (0, 0);
        let expected: Vec<_> = tubes(&job)
            .iter()
            .map(|(kind, frames)| {
                let n = frames.len() as u32;
                let words = [*kind as u32, frames[0].0 as u32, n, v, t];
                v += 64 * n - 54;
                t += 128 * n - 112;
                words
            })
            .collect();
        let got: Vec<_> = listed.list.iter().map(|tube| tube.words).collect();
        assert_eq!(got, expected, "job {i}");
        compared += got.len();
    }
    assert!(compared > 20_000, "only {compared} tubes");
}

#[test]
fn the_page_gives_the_same_boxes() {
    let mut compared = 0;
    let of_all_kinds = (0..4000).map(|i| (i, job(&mut Rng::new(23, i))));
    let with_equals = (0..2000).map(|i| (i, tied(&mut Rng::new(23, i))));
    for (i, job) in of_all_kinds.chain(with_equals) {
        // A coordinate is held against all others of its tube, so the largest jobs are left out.
        if !decode(&job.bytes()).is_ok_and(|j| list(&j).v < 10_000) {
            continue;
        }
        let (_, b) = built(&job);
        let tubes = common::tubes(&b).into_iter();
        let expected: Vec<u32> = tubes.flat_map(|t| box_bits(&b.positions, t)).collect();
        let got: Vec<u32> = b.boxes.iter().map(|f| f.to_bits()).collect();
        assert_eq!(got, expected, "job {i}");
        compared += got.len() / 6;
    }
    assert!(compared > 11_000, "only {compared} tubes");
}

#[test]
fn the_page_gives_the_same_caps() {
    let mut compared = [0; 2];
    let of_all_kinds = (0..4000).map(|i| (i, job(&mut Rng::new(24, i))));
    let huddled = (0..1000).map(|i| (i, tied(&mut Rng::new(24, i))));
    let with_no_chord = (0..4000).map(|i| (i, capped(&mut Rng::new(24, i))));
    for (i, job) in of_all_kinds.chain(huddled).chain(with_no_chord) {
        if !decode(&job.bytes()).is_ok_and(|j| list(&j).v < 10_000) {
            continue;
        }
        let (_, b) = built(&job);
        let normal = |vertex: usize| &b.normals[3 * vertex..][..3];
        let bits = |normal: &[f32]| normal.iter().map(|f| f.to_bits()).collect::<Vec<_>>();
        let listed = common::tubes(&b);
        let read = tubes(&job);
        assert_eq!(listed.len(), read.len(), "job {i}");
        for ([_, _, n, vertex, _], (kind, frames)) in listed.into_iter().zip(read) {
            let points = spline_points(kind, &frames);
            let first = vertex as usize;
            let last = first + 64 * n as usize - 55;
            let start = start_normal(&points);
            assert_eq!(bits(normal(first + 8)), bits(&start), "job {i}, start");
            let end = end_normal(&points);
            assert_eq!(bits(normal(last)), bits(&end), "job {i}, end");
            let nowhere = direction(last_chord(&points)).is_none();
            compared[nowhere as usize] += 1;
        }
    }
    assert!(compared[0] > 9000 && compared[1] > 3000, "{compared:?}");
}

#[test]
fn the_page_gives_the_same_tags_and_triangles() {
    for i in 0..2000 {
        let job = job(&mut Rng::new(22, i));
        if !decode(&job.bytes()).is_ok_and(|j| list(&j).v < MAX_VERTICES / 20) {
            continue;
        }
        let (_, b) = built(&job);
        let (mut expected_tags, mut expected) = (Vec::new(), Vec::new());
        for tube in common::tubes(&b) {
            let [_, first, n, vertex, _] = tube;
            expected_tags.extend(tags(first, n));
            expected.extend(triangles(n).as_flattened().iter().map(|c| c + vertex));
        }
        assert_eq!(b.tags, expected_tags, "job {i}");
        assert_eq!(b.triangles, expected, "job {i}");
    }
}
