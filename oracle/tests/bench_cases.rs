//! The bench cases of 01, in its order, and the text of `ribbon-plan`.

mod common;

use common::{build_in, built, fitting, tubes};
use oracle::{
    calls::{Buffers, Counts, plan, tube},
    cases::{
        at_vertex_limit, coordinate, narrowing, six_residues, step, straight, straight_segment,
        two_residues,
    },
    job::{RawJob, Refusal, decode},
    plan_text::plan_text,
    stand_ins::{SecondaryStructure, Vec3F32},
    tubes::Tubes,
};

fn counts(k: u32, v: u32, t: u32) -> Counts {
    Counts { k, v, t }
}

#[test]
fn the_empty_job() {
    let bytes = RawJob::default().bytes();
    assert_eq!(bytes, [0, 0, 0, 9, 1, 0, 0, 0, 0, 0, 0, 0, 0]);
    assert_eq!(build_in(&bytes, [0; 8]).0, Ok(counts(0, 0, 0)));
}

#[test]
fn counts_of_one_two_and_three() {
    assert_eq!(built(&straight(1)).0, counts(0, 0, 0));
    assert_eq!(built(&straight(2)).0, counts(1, 74, 144));
    assert_eq!(built(&straight(3)).0, counts(1, 138, 272));
    // Nine rings and two centres.
    assert_eq!(9 * 8 + 2, 74);
}

#[test]
fn six_residues_with_a_helix() {
    let job = six_residues();
    let (c, b) = built(&job);
    assert_eq!(c, counts(3, 350, 688));
    let expected = [[1, 2, 2, 0, 0], [0, 0, 3, 74, 144], [0, 3, 3, 212, 416]];
    assert_eq!(tubes(&b), expected);
    let mut lengths = fitting(&job.bytes());
    assert_eq!(build_in(&job.bytes(), lengths).0, Ok(c));
    lengths[2] = 349;
    let refused = Refusal {
        number: 11,
        carried: [3, 350, 688],
    };
    assert_eq!(build_in(&job.bytes(), lengths).0, Err(refused));
}

#[test]
fn steps_around_five() {
    let tubes_of = |x, y, z| built(&step(x, y, z)).0.k;
    assert_eq!(tubes_of(3.0, 4.0, 0.0), 1);
    assert_eq!(tubes_of(5.0, 0.0, 0.0), 1);
    assert_eq!(tubes_of(f32::from_bits(0x40A0_0001) as f64, 0.0, 0.0), 0);
    // Its root is rounded to exactly 5.0.
    assert_eq!(tubes_of(3.0, 4.0, 0.0012), 1);
}

#[test]
fn square_roots() {
    let length = |x, y| Vec3F32::new(x, y, 0.0).magnitude().to_bits();
    assert_eq!(length(1.0, 1.0), 0x3FB5_04F3);
    assert_eq!(length(2.0, 0.0), 2f32.to_bits());
    assert_eq!((-0f32).sqrt().to_bits(), (-0f32).to_bits());
}

/// At t = 0 the curve stands at the first C-alpha exactly, and so does the start centre.
#[test]
fn narrowing_shows_in_the_start_centre() {
    let start_centre = |job: &RawJob| {
        let (_, b) = built(job);
        [24, 25, 26].map(|i| b.positions[i].to_bits())
    };
    let mut job = narrowing();
    let first = [0x3DCC_CCCD, 1f32.to_bits(), 0x3F80_0002];
    assert_eq!(start_centre(&job), first);
    // The other residue's coordinates, and with them the fourth case, come first.
    let (one, two) = job.atoms.split_at_mut(1);
    std::mem::swap(&mut one[0].xyz, &mut two[0].xyz);
    let second = [0, 1.5f32.to_bits(), 2f32.to_bits()];
    assert_eq!(start_centre(&job), second);
}

/// Vertex `side` of ring `s` of the first tube.
fn ring_vertex(b: &Buffers, s: usize, side: usize) -> Vec3F32 {
    let i = if s == 0 { side } else { 9 + 8 * (s - 1) + side };
    Vec3F32::new(
        b.positions[3 * i],
        b.positions[3 * i + 1],
        b.positions[3 * i + 2],
    )
}

#[test]
fn the_arrow_of_a_sheet() {
    let (_, b) = built(&straight_segment(3, 2));
    for (s, half) in [(7, 1.0), (8, 1.5), (12, 0.75), (16, 0.01)] {
        // Sides 2 and 6 lie along the guide and against it.
        let across = ring_vertex(&b, s, 2) - ring_vertex(&b, s, 6);
        assert!((across.magnitude() / 2.0 - half).abs() < 1e-6, "sample {s}");
    }
}

#[test]
fn first_triangles_and_tags() {
    let (_, b) = built(&two_residues());
    let triangle = |i: usize| &b.triangles[3 * i..3 * i + 3];
    for k in 0..8 {
        assert_eq!(triangle(k), [8, (k as u32 + 1) % 8, k as u32]);
    }
    assert_eq!(triangle(8), [0, 10, 9]);
    assert_eq!(triangle(9), [0, 1, 10]);
    assert_eq!(triangle(136), [73, 65, 66]);
    let tags: Vec<u32> = (0..74).map(|i| (i > 32) as u32).collect();
    assert_eq!(b.tags, tags);
}

#[test]
fn the_first_vertex_and_its_normal() {
    let (_, b) = built(&two_residues());
    assert_eq!(b.positions[..3], [0.0, 0.0, -0.25]);
    assert_eq!(b.normals[..3], [0.0, 0.0, -1.0]);
}

#[test]
fn coordinates_at_the_limit() {
    let past = f64::from_bits(16384f64.to_bits() + 1);
    let refusal = |x| decode(&coordinate(x).bytes()).err();
    assert_eq!(refusal(16384.0), None);
    assert_eq!(refusal(-16384.0), None);
    for x in [past, -past, f64::INFINITY, f64::NAN] {
        assert_eq!(refusal(x), Some(Refusal::new(8, 0)));
    }
}

#[test]
fn vertices_at_the_limit() {
    let plan_of = |job: &RawJob| {
        let n = 512;
        plan(&job.bytes(), 0, &mut vec![0; 8 * n], &mut vec![0.0; 32 * n])
    };
    assert_eq!(plan_of(&at_vertex_limit(0)).unwrap().0.v, 1_048_576);
    assert_eq!(plan_of(&at_vertex_limit(2)), Err(Refusal::new(10, 0)));
}

#[test]
fn vertices_past_two_to_the_32_do_not_wrap() {
    // What 61,056 segments over 1,100 residues add up to. Wrapped, the sum would be 78,080 and pass check 10.
    let mut tubes = Tubes::new();
    for _ in 0..61_056 {
        tubes.add(SecondaryStructure::Helix, 0, 1100);
    }
    assert_eq!(
        (tubes.k, tubes.v, tubes.t),
        (61_056, (1 << 32) + 78_080, 8_589_846_528)
    );
    // Only what is within the limit is kept.
    assert_eq!(tubes.list.len(), 14);
}

#[test]
fn the_part_of_a_tube() {
    let (_, b) = built(&six_residues());
    let part = |k| tube(&b.tubes, &b.triangles, k);
    assert_eq!(part(0), &b.triangles[..432]);
    assert_eq!(part(1), &b.triangles[432..1248]);
    assert_eq!(part(2), &b.triangles[1248..]);
    assert!(part(3).is_empty());
    assert!(part(u32::MAX).is_empty());
    assert!(tube(&b.tubes[..14], &b.triangles, 2).is_empty());
    assert!(tube(&b.tubes, &b.triangles[..2063], 2).is_empty());
    // Three times this first triangle is 2 modulo 2^32.
    assert!(tube(&[0, 0, 2, 0, 1_431_655_766], &b.triangles, 0).is_empty());
    for n in [0, 1, 16_384, 16_385, 2 + (1 << 25)] {
        assert!(tube(&[0, 0, n, 0, 0], &b.triangles, 0).is_empty());
    }
}

#[test]
fn what_ribbon_plan_prints() {
    let bytes = two_residues().bytes();
    assert_eq!(bytes.len(), 80);
    let head = [0, 0, 0, 0x4C, 1, 0, 1, 0, 2, 0, 0, 0, 2, 1];
    assert_eq!(bytes[..14], head);
    assert_eq!(
        plan_text(&bytes),
        "tubes 1 vertices 74 triangles 144\ntube 0 kind 0 residue 0 length 2 vertex 0 triangle 0\n"
    );
    assert_eq!(
        plan_text(&six_residues().bytes()),
        "tubes 3 vertices 350 triangles 688\n\
         tube 0 kind 1 residue 2 length 2 vertex 0 triangle 0\n\
         tube 1 kind 0 residue 0 length 3 vertex 74 triangle 144\n\
         tube 2 kind 0 residue 3 length 3 vertex 212 triangle 416\n"
    );
    assert_eq!(
        plan_text(&RawJob::default().bytes()),
        "tubes 0 vertices 0 triangles 0\n"
    );
    assert_eq!(plan_text(&[]), "refused 1 0\n");
    assert_eq!(plan_text(&[0; 65_537]), "too long\n");
    assert_eq!(plan_text(&[0; 65_536]), "refused 1 0\n");
    let other = RawJob {
        version: 7,
        ..RawJob::default()
    };
    assert_eq!(plan_text(&other.bytes()), "refused 2 7\n");
    let with_residues = |residues| RawJob {
        residues,
        ..RawJob::default()
    };
    assert_eq!(
        plan_text(&with_residues(512).bytes()),
        "tubes 0 vertices 0 triangles 0\n"
    );
    assert_eq!(plan_text(&with_residues(513).bytes()), "refused 9 0\n");
    assert_eq!(plan_text(&at_vertex_limit(2).bytes()), "refused 10 0\n");
}
