//! Facts about every mesh of the oracle: the counts of a tube, corners in the tube's own range, each directed edge once and its reverse
//! once. And which way the triangles face.

mod common;

use std::collections::HashSet;

use common::{built, tubes};
use oracle::{
    calls::{Buffers, Counts, list},
    caps::capped,
    cases::two_residues,
    job::decode,
    jobs::job,
    rng::Rng,
    tied::tied,
    tubes::MAX_VERTICES,
};

/// The rule that a tube breaks, if any.
fn fault(b: &Buffers, [kind, _, n, vertex, triangle]: [u32; 5]) -> Option<&'static str> {
    let corners = &b.triangles[3 * triangle as usize..][..3 * (128 * n as usize - 112)];
    let range = vertex..vertex + 64 * n - 54;
    if kind > 2 || n < 2 {
        return Some("kind or length");
    }
    if !corners.iter().all(|c| range.contains(c)) {
        return Some("a corner outside the tube");
    }
    if corners.iter().collect::<HashSet<_>>().len() != range.len() {
        return Some("an unused vertex");
    }
    let mut edges = HashSet::new();
    for t in corners.chunks(3) {
        for (from, to) in [(t[0], t[1]), (t[1], t[2]), (t[2], t[0])] {
            if from == to || !edges.insert((from, to)) {
                return Some("a directed edge twice");
            }
        }
    }
    if !edges.iter().all(|&(from, to)| edges.contains(&(to, from))) {
        return Some("an edge without its reverse");
    }
    None
}

fn check(c: Counts, b: &Buffers) {
    let (mut v, mut t) = (0, 0);
    for words in tubes(b) {
        assert_eq!(fault(b, words), None, "tube {words:?}");
        assert_eq!((words[3], words[4]), (v, t), "running sums");
        v += 64 * words[2] - 54;
        t += 128 * words[2] - 112;
    }
    assert_eq!((c.v, c.t), (v, t));
    assert!(b.positions.iter().chain(&b.normals).all(|f| f.is_finite()));
}

#[test]
fn every_mesh_is_closed() {
    let mut tubes = 0;
    for i in 0..5000 {
        let rng = &mut Rng::new(5, i);
        let job = match i {
            0..3000 => job(rng),
            3000..4000 => tied(rng),
            _ => capped(rng),
        };
        let bytes = job.bytes();
        if !decode(&bytes).is_ok_and(|j| list(&j).v < MAX_VERTICES / 20) {
            continue;
        }
        let (c, b) = built(&job);
        check(c, &b);
        tubes += c.k;
    }
    assert!(tubes > 6000, "only {tubes} tubes");
}

#[test]
fn a_fault_would_be_seen() {
    let (_, mut b) = built(&two_residues());
    let words = tubes(&b)[0];
    assert_eq!(fault(&b, words), None);
    b.triangles.swap(0, 1);
    assert_eq!(fault(&b, words), Some("a directed edge twice"));
    b.triangles.swap(0, 1);
    b.triangles[0] = 74;
    assert_eq!(fault(&b, words), Some("a corner outside the tube"));
}

/// Document 000 winds its triangles inward: the signed volume of a closed tube is negative.
#[test]
fn triangles_face_inward() {
    let (_, b) = built(&two_residues());
    let corner = |i: u32| {
        let i = 3 * i as usize;
        [b.positions[i], b.positions[i + 1], b.positions[i + 2]].map(|x| x as f64)
    };
    let volume: f64 = b
        .triangles
        .chunks(3)
        .map(|t| {
            let [p, q, r] = [corner(t[0]), corner(t[1]), corner(t[2])];
            let cross = [
                q[1] * r[2] - q[2] * r[1],
                q[2] * r[0] - q[0] * r[2],
                q[0] * r[1] - q[1] * r[0],
            ];
            (p[0] * cross[0] + p[1] * cross[1] + p[2] * cross[2]) / 6.0
        })
        .sum();
    // An octagonal prism of radius 0.25 and length 4.
    let prism = 4.0 * 8.0 * 0.5 * 0.0625 * (std::f64::consts::TAU / 8.0).sin();
    assert!((volume + prism).abs() < 1e-5, "{volume}");
}
