//! 02 §2, boxes that hold the print: the fold itself on made points, boxes of small jobs, and what the requests of the kind `boxes` show. Those of
//! the other kinds gave no box both -0 and +0 to choose from.

mod common;

use common::{build_in, built, fitting};
use oracle::{
    cases::{chain_at, ties, two_residues},
    compare::Tally,
    generator::Kind,
    job::RawJob,
    protocol::{BUILD, Request, answer},
    tubes::bounds,
    wrong::{self, Mutation},
};

fn bits(bounds: &[f32]) -> Vec<u32> {
    bounds.iter().map(|f| f.to_bits()).collect()
}

/// 01: 'the earlier of equals is kept'.
#[test]
fn the_earlier_of_equal_coordinates_is_kept() {
    let of = |points: &[[f32; 3]]| bits(&bounds(points.iter().copied()));
    // From the first point on, in both orders.
    assert_eq!(
        of(&[[0.0, -0.0, 1.0], [-0.0, 0.0, 2.0], [0.0, -0.0, 1.5]]),
        bits(&[0.0, -0.0, 1.0, 0.0, -0.0, 2.0])
    );
    // Where a later one is the least: in x -0 is the earlier, in y +0. Nothing is above the first.
    assert_eq!(
        of(&[[3.0, 3.0, 3.0], [-0.0, 0.0, 3.0], [0.0, -0.0, 3.0]]),
        bits(&[-0.0, 0.0, 3.0, 3.0, 3.0, 3.0])
    );
    // And the greatest.
    assert_eq!(
        of(&[[-3.0, -3.0, -3.0], [-0.0, 0.0, -3.0], [0.0, -0.0, -3.0]]),
        bits(&[-3.0, -3.0, -3.0, -0.0, 0.0, -3.0])
    );
}

/// And the deliberate mistake keeps the later, on every side.
#[test]
fn the_mistake_keeps_the_later_of_equal_coordinates() {
    let of = |points: &[[f32; 3]]| {
        let later = Some(Mutation::BoxLaterOfEquals);
        wrong::with(later, || bits(&bounds(points.iter().copied())))
    };
    assert_eq!(
        of(&[[0.0, -0.0, 1.0], [-0.0, 0.0, 2.0]]),
        bits(&[-0.0, 0.0, 1.0, -0.0, 0.0, 2.0])
    );
    assert_eq!(
        of(&[[3.0, 3.0, -3.0], [-0.0, 0.0, -0.0], [0.0, -0.0, 0.0]]),
        bits(&[0.0, -0.0, -3.0, 3.0, 3.0, 0.0])
    );
}

/// The smallest job known at which that choice shows.
#[test]
fn a_box_has_zeros_of_both_signs_to_choose_from() {
    let (_, b) = built(&ties());
    let y = b.positions.iter().skip(1).step_by(3).copied();
    let zeros: Vec<f32> = y.filter(|&y| y == 0.0).collect();
    assert_eq!(
        bits(&[zeros[0], zeros[zeros.len() - 1]]),
        bits(&[0.0, -0.0])
    );
    let low = f32::from_bits(0x8000_0001);
    let [earlier, later] = with_and_without(&ties(), Mutation::BoxLaterOfEquals);
    assert_eq!(earlier, bits(&[-0.25, low, -0.25, 0.25, 0.0, 0.25]));
    assert_eq!(later, bits(&[-0.25, low, -0.25, 0.25, -0.0, 0.25]));
}

/// The documents do not say; by strict tests a NaN that is first stays, and a later one is passed over.
#[test]
fn a_nan_stays_where_it_is_first() {
    let nan = f32::NAN;
    let b = bounds([[nan, 2.0, 1.0], [1.0, nan, 0.0], [-1.0, 3.0, nan]].into_iter());
    assert!(b[0].is_nan() && b[3].is_nan());
    assert_eq!([b[1], b[2], b[4], b[5]], [2.0, 0.0, 3.0, 1.0]);
}

/// Its boxes, and what they would be with this mistake.
fn with_and_without(job: &RawJob, m: Mutation) -> [Vec<u32>; 2] {
    [None, Some(m)].map(|m| wrong::with(m, || bits(&built(job).1.boxes)))
}

/// Its box, and that of its C-alphas, which 01 had.
fn now_and_before(job: &RawJob) -> [Vec<u32>; 2] {
    with_and_without(job, Mutation::BoxOfAlphas)
}

/// The rings of a coil stand out by 0.25 from a straight curve.
#[test]
fn a_box_holds_the_rings() {
    let [now, before] = now_and_before(&two_residues());
    assert_eq!(now, bits(&[0.0, -0.25, -0.25, 4.0, 0.25, 0.25]));
    assert_eq!(before, bits(&[0.0, 0.0, 0.0, 4.0, 0.0, 0.0]));
}

/// Where two C-alphas coincide the curve itself runs past them: they reach x = 4.1, the box x = 4.3929687.
#[test]
fn a_box_holds_what_runs_past_the_last_residue() {
    let [now, before] = now_and_before(&chain_at(&[
        [0.1, 0.0, 0.0],
        [4.1, 0.0, 0.0],
        [4.1, 0.0, 0.0],
    ]));
    // 4.3929687
    let reach = f32::from_bits(0x408C_9333);
    assert_eq!(now, bits(&[0.1, -0.25, -0.25, reach, 0.25, 0.25]));
    assert_eq!(before, bits(&[0.1, 0.0, 0.0, 4.1, 0.0, 0.0]));
}

const SEED: u64 = 11;
const REQUESTS: u64 = 2000;

fn requests() -> impl Iterator<Item = Request> {
    (0..REQUESTS).map(|i| Kind::Boxes.request(SEED, i))
}

/// How many of the requests this mistake changes the answer to.
fn shown_by(m: Mutation) -> usize {
    let shows = |r: &Request| wrong::with(Some(m), || answer(r)) != answer(r);
    requests().filter(shows).count()
}

/// One in fifteen or so shows the later of equals; each other mistake about boxes shows too.
#[test]
fn requests_for_boxes_show_mistakes_about_boxes() {
    let later = shown_by(Mutation::BoxLaterOfEquals);
    assert!(later >= 100, "{later} of {REQUESTS}");
    for m in [
        Mutation::BoxOfFirstRing,
        Mutation::BoxOfAlphas,
        Mutation::BoxOfNormals,
        Mutation::BoxesNotChecked,
    ] {
        assert!(shown_by(m) >= 100, "{}", m.what());
    }
}

/// Meshes of tubes of every kind, refusals 11 for the boxes alone and for others, a few plans; the same again each time.
#[test]
fn requests_for_boxes_are_of_many_sizes_and_stay_the_same() {
    let (mut tally, mut short_boxes, mut lengths) = (Tally::default(), 0, [0; 3]);
    for (i, r) in requests().enumerate() {
        assert_eq!(Kind::Boxes.request(SEED, i as u64), r);
        let a = answer(&r);
        assert_eq!(answer(&r), a, "request {i}");
        tally.count(&r, &a);
        if r.call == BUILD && a[0] == 11 {
            let needs = fitting(&r.bytes);
            short_boxes += (r.lengths[5] < needs[5]) as u64;
        }
        if r.call == BUILD && a[0] == 0 {
            let (counts, b) = build_in(&r.bytes, r.lengths);
            let k = counts.expect("a mesh").k as usize;
            assert!(b.boxes[..6 * k].iter().all(|f| f.is_finite()));
            for words in b.tubes[..5 * k].chunks(5) {
                lengths[words[0] as usize] |= 1 << words[2];
            }
        }
    }
    let text = tally.text();
    let others = tally.refusals[11] - short_boxes;
    assert!(tally.meshes > 1400 && tally.plans > 50, "{text}");
    assert!(short_boxes > 100 && others > 20, "{text}");
    // Two to four residues, of each kind.
    assert!(lengths.iter().all(|seen| seen & 0b11100 == 0b11100));
}

/// Both ways for the greatest, and for the least.
#[test]
fn requests_for_boxes_show_the_choice_on_both_sides() {
    let mut seen = [0; 3];
    for r in requests().filter(|r| r.call == BUILD && answer(r)[0] == 0) {
        let job = RawJob::of(&r.bytes).expect("an accepted job");
        let [earlier, later] = with_and_without(&job, Mutation::BoxLaterOfEquals);
        for (i, (&a, &b)) in earlier.iter().zip(&later).enumerate() {
            match (a != b, i % 6 < 3, f32::from_bits(a).is_sign_negative()) {
                (true, false, false) => seen[0] += 1,
                (true, false, true) => seen[1] += 1,
                (true, true, _) => seen[2] += 1,
                (false, _, _) => {}
            }
        }
    }
    assert!(seen.iter().all(|&n| n >= 5), "{seen:?}");
}
