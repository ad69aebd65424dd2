//! 02 §6, no cap normal of zero: the smallest tubes known whose end cap has no chord, or hardly any, and what the requests of the kind `caps` show.

mod common;

use common::{
    build_in, built,
    reading::{Frame, Point, direction, last_chord, last_derivative, length, spline_points, tubes},
};
use oracle::{
    calls::Buffers,
    cases::{all_of, caps, chain_at, on_x, party_without_chord},
    compare::Tally,
    generator::Kind,
    job::RawJob,
    protocol::{BUILD, BUILD_SHARE, PLAN, Request, answer},
    wrong::{self, Mutation},
};

const Y: [u32; 3] = [0, 0x3F80_0000, 0];

fn bits(a: Point) -> [u32; 3] {
    a.map(f32::to_bits)
}

/// The last three words of a tube's normals, from one of its records.
fn end_words(b: &Buffers, [_, _, n, vertex, _]: [u32; 5]) -> [u32; 3] {
    let at = 3 * (vertex + 64 * n - 55) as usize;
    [0, 1, 2].map(|a| b.normals[at + a].to_bits())
}

/// The records of the first `k` tubes, in buffers that may be longer.
fn records(b: &Buffers, k: usize) -> Vec<[u32; 5]> {
    let (records, _) = b.tubes.as_chunks();
    records[..k].to_vec()
}

/// Those of a job's only tube.
fn normal(job: &RawJob) -> [u32; 3] {
    let (counts, b) = built(job);
    assert_eq!(counts.k, 1);
    end_words(&b, records(&b, 1)[0])
}

/// The spline points of a job's only tube.
fn points(job: &RawJob) -> Vec<Point> {
    let (kind, frames) = tubes(job).pop().expect("a tube");
    spline_points(kind, &frames)
}

// ── Worked cases ──────────────────────────────────────────────────────────────

#[test]
fn the_smallest_tubes_have_these_normals() {
    for (i, cap) in caps().iter().enumerate() {
        assert_eq!(normal(&cap.job), cap.normal, "case {i}");
    }
    // Each mistake about end caps shows in one of them.
    for &m in Mutation::ALL {
        if m.name().starts_with("Cap") {
            let shows = |job: &RawJob| wrong::with(Some(m), || normal(job)) != normal(job);
            assert!(caps().iter().any(|cap| shows(&cap.job)), "{}", m.what());
        }
    }
}

/// In real numbers the derivative at the last sample is 0 where the last two points are one. In f32 it may be what rounding leaves.
#[test]
fn the_last_derivative_is_what_rounding_leaves() {
    let derivative = |job: &RawJob| last_derivative(&points(job));
    assert_eq!(derivative(&on_x(&[0.0, 4.0, 4.0])), [0.0; 3]);
    // Back into the tube, which runs along x.
    let job = on_x(&[0.1, 4.1, 4.1]);
    assert_eq!(bits(derivative(&job)), [0xB580_0000, 0, 0]);
    assert_eq!(derivative(&job)[0], -(2f32.powi(-20)));
    assert_eq!(normal(&job), bits([-1.0, 0.0, 0.0]));
    // Two residues at one place: under 1e-8, above it, and below 0, whatever the kind.
    for (x, left, end) in [
        (0.1, 2f32.powi(-27), Y),
        (0.2, 2f32.powi(-26), bits([1.0, 0.0, 0.0])),
        (0.7, -(2f32.powi(-24)), bits([-1.0, 0.0, 0.0])),
    ] {
        for kind in 0..3 {
            let job = all_of(on_x(&[x, x]), kind);
            assert_eq!(derivative(&job), [left, 0.0, 0.0], "{x}");
            assert_eq!(normal(&job), end, "{x}");
        }
    }
}

/// 'Length 0' is the computed length: squares that are rounded to 0 count, those of the least that is not do not.
#[test]
fn squares_that_vanish_leave_no_direction() {
    let vanishes = 2f32.powi(-75);
    let next = f32::from_bits(vanishes.to_bits() + 1);
    assert_eq!([vanishes * vanishes, next * next], [0.0, 2f32.powi(-149)]);
    for [x, y, z] in [[vanishes, 0.0, 0.0], [-vanishes; 3], [0.0, 1e-25, -1e-30]] {
        let job = chain_at(&[[0.0; 3], [x as f64, y as f64, z as f64]]);
        assert_eq!(normal(&job), Y);
    }
    // One that does not is enough: the chord is (2^-75, next, 0), its length 2^-74.5, so that the normal is not of length 1.
    let job = chain_at(&[[0.0; 3], [vanishes as f64, next as f64, 0.0]]);
    assert_eq!(normal(&job), [0x3F35_04F3, 0x3F35_04F4, 0]);
}

/// A sheet's points are smoothed, so that its C-alphas do not tell: apart they may come together, and together they may come apart.
#[test]
fn smoothed_points_decide_in_a_sheet() {
    let sheet = |xs: &[f64]| all_of(on_x(xs), 2);
    let xs = |job: &RawJob| points(job).iter().map(|p| p[0]).collect::<Vec<_>>();
    assert_eq!(xs(&sheet(&[0.0, 4.5, 1.0])), [0.0, 1.0, 1.0]);
    assert_eq!(xs(&sheet(&[0.0, 4.0, 4.0])), [0.0, 2.25, 4.0]);
    // A pass reaches one further, so that of more than five residues the last five have to be at one place: three or four are not enough.
    let two = sheet(&[0.0, 4.0, 4.0, 4.0]);
    assert_eq!(xs(&two), [0.0, 2.1875, 3.5, 4.0]);
    assert_eq!(normal(&two), bits([1.0, 0.0, 0.0]));
    let four = sheet(&[0.0, 4.0, 4.0, 4.0, 4.0]);
    assert_eq!(xs(&four)[3..], [3.9375, 4.0]);
    let five = sheet(&[0.0, 4.0, 4.0, 4.0, 4.0, 4.0]);
    assert_eq!(xs(&five)[3..], [3.9375, 4.0, 4.0]);
    assert_eq!(normal(&five), Y);
}

/// A start cap stays the negated first tangent. Where the first two points are one the first derivative is 0 in f32 too, so that it is minus y,
/// whichever way the tube runs on.
#[test]
fn a_start_cap_takes_no_chord() {
    let start = |job: &RawJob| [0, 1, 2].map(|a| built(job).1.normals[24 + a].to_bits());
    for xs in [[4.1, 4.1, 0.1], [0.7, 0.7, 0.7], [0.0, 1e-25, 4.0]] {
        assert_eq!(start(&on_x(&xs)), bits([-0.0, -1.0, -0.0]), "{xs:?}");
    }
    // The first chord decides nothing even where it has a direction: the derivative's length, 8e-9, is under 1e-8.
    assert_eq!(start(&on_x(&[0.0, 4e-9])), bits([-0.0, -1.0, -0.0]));
}

// ── What the requests show ────────────────────────────────────────────────────

const SEED: u64 = 13;
const REQUESTS: u64 = 3000;

fn requests() -> impl Iterator<Item = Request> {
    (0..REQUESTS).map(|i| Kind::Caps.request(SEED, i))
}

/// Those that are builds with a mesh: the job, and the request.
fn meshes() -> impl Iterator<Item = (RawJob, Request)> {
    let builds = requests().filter(|r| r.call == BUILD && answer(r)[0] == 0);
    builds.map(|r| (RawJob::of(&r.bytes).expect("an accepted job"), r))
}

/// What one tube shows.
#[derive(Debug, Default, PartialEq)]
struct Seen {
    tubes: u64,
    /// No direction: a chord of zeros, and one whose length is rounded to 0.
    exactly: u64,
    vanished: u64,
    /// Of these: the tangent falls back to y; it leads back; it leads on.
    fallback: u64,
    backwards: u64,
    forwards: u64,
    /// All points at one place; or a tube that has more than two residues and a direction before its last chord.
    all_at_one: u64,
    of_more: u64,
    /// The C-alphas are apart, as f32; and of chords with a direction those whose C-alphas are together.
    apart: u64,
    together: u64,
    /// Zeros of either sign in the last two points.
    signs: u64,
    /// Past 8192.
    far: u64,
    /// A direction of a length under 1e-8; and of one from that to 4e-8.
    tiny: u64,
    short: u64,
}

impl Seen {
    fn count(&mut self, frames: &[Frame], points: &[Point]) {
        let n = points.len();
        self.tubes += 1;
        let chord = last_chord(points);
        let alphas: Vec<Point> = frames.iter().map(|f| f.1).collect();
        let apart = direction(last_chord(&alphas)).is_some();
        let l = length(chord);
        if l != 0.0 {
            self.tiny += (l < 1e-8) as u64;
            self.short += (1e-8..4e-8).contains(&l) as u64;
            self.together += !apart as u64;
            return;
        }
        let zeros = chord == [0.0; 3];
        self.exactly += zeros as u64;
        self.vanished += !zeros as u64;
        self.apart += apart as u64;
        self.all_at_one += points.iter().all(|p| *p == points[0]) as u64;
        self.far += points[n - 1].iter().any(|x| x.abs() > 8192.0) as u64;
        self.signs += (zeros && bits(points[n - 1]) != bits(points[n - 2])) as u64;
        let before = (2..n)
            .rev()
            .find_map(|k| direction(last_chord(&points[..k])));
        self.of_more += before.is_some() as u64;
        let derivative = last_derivative(points);
        if length(derivative) < 1e-8 {
            self.fallback += 1;
        } else if let Some([x, y, z]) = before {
            let on = derivative[0] * x + derivative[1] * y + derivative[2] * z;
            self.backwards += (on < 0.0) as u64;
            self.forwards += (on > 0.0) as u64;
        }
    }
}

/// Of tubes of each kind there are enough that show each thing.
#[test]
fn requests_for_caps_show_all_there_is_to_show() {
    let mut seen: [Seen; 3] = Default::default();
    for (job, _) in meshes() {
        for (kind, frames) in tubes(&job) {
            seen[kind as usize].count(&frames, &spline_points(kind, &frames));
        }
    }
    println!("{seen:#?}");
    for (kind, s) in ["coil", "helix", "sheet"].iter().zip(&seen) {
        for (of, least) in [
            (s.exactly, 300),
            (s.vanished, 60),
            (s.fallback, 200),
            (s.backwards, 40),
            (s.forwards, 40),
            (s.all_at_one, 100),
            (s.of_more, 100),
            (s.signs, 20),
            (s.far, 40),
            (s.tiny, 40),
            (s.short, 10),
        ] {
            assert!(of >= least, "{kind}: {of}, not {least}, of {s:?}");
        }
    }
    let sheets = &seen[2];
    assert!(sheets.apart >= 80 && sheets.together >= 60, "{sheets:?}");
    // A coil's and a helix's points are their C-alphas.
    assert!(seen[..2].iter().all(|s| s.apart + s.together == 0));
}

/// Two f64 that are one f32; a coil's neighbour at its last place; tubes of two residues and of more, of each kind; builds of a party; plans, and buffers one place short.
#[test]
fn requests_for_caps_are_of_many_sorts_and_stay_the_same() {
    let (mut tally, mut calls) = (Tally::default(), [0; 9]);
    for (i, r) in requests().enumerate() {
        assert_eq!(Kind::Caps.request(SEED, i as u64), r);
        let a = answer(&r);
        assert_eq!(answer(&r), a, "request {i}");
        tally.count(&r, &a);
        calls[r.call as usize] += (a[0] == 0) as u64;
    }
    let text = tally.text();
    assert!(calls[BUILD as usize] > 2000, "{text}");
    assert!(calls[BUILD_SHARE as usize] > 200, "{text}");
    assert!(
        calls[PLAN as usize] > 80 && tally.refusals[11] > 200,
        "{text}"
    );
    let (mut narrowed, mut lent) = (0, 0);
    let mut lengths = [0; 3];
    for (job, _) in meshes() {
        let one = |w: &[[f64; 3]]| w[0] != w[1] && w[0].map(|x| x as f32) == w[1].map(|x| x as f32);
        let alphas: Vec<_> = job
            .atoms
            .iter()
            .filter(|a| a.role == 1)
            .map(|a| a.xyz)
            .collect();
        narrowed += alphas.windows(2).any(one) as u64;
        let all = tubes(&job);
        for (kind, frames) in &all {
            lengths[*kind as usize] |= 1 << frames.len();
            // A coil that ends in the first residue of another tube.
            let nowhere = direction(last_chord(&spline_points(*kind, frames))).is_none();
            let last = frames[frames.len() - 1].0;
            lent += (nowhere && all.iter().any(|(_, other)| other[0].0 == last)) as u64;
        }
    }
    assert!(narrowed > 300 && lent > 60, "{narrowed}, {lent}");
    // Two to seven residues.
    assert!(lengths.iter().all(|seen| seen & 0b1111_1100 == 0b1111_1100));
}

/// 02 §6's title, of every mesh: no end cap has a normal of zeros, nor one that is not finite.
#[test]
fn no_cap_has_a_normal_of_zeros() {
    let mut looked_at = 0;
    for (_, r) in meshes() {
        let (counts, b) = build_in(&r.bytes, r.lengths);
        let k = counts.expect("a mesh").k as usize;
        for tube in records(&b, k) {
            let normal = end_words(&b, tube).map(f32::from_bits);
            assert!(normal.iter().all(|x| x.is_finite()) && normal != [0.0; 3]);
            looked_at += 1;
        }
    }
    assert!(looked_at > 4000, "{looked_at}");
}

/// Where the Rust's answer, zeros, is given instead, the last three normals' words of tubes with no direction are other words, and no others.
#[test]
fn three_words_of_a_tube_are_all_that_differs_from_the_rust() {
    let mut changed = 0;
    for (job, r) in meshes() {
        let (counts, now) = build_in(&r.bytes, r.lengths);
        let (_, rust) = wrong::with(Some(Mutation::CapZero), || build_in(&r.bytes, r.lengths));
        let k = counts.expect("a mesh").k as usize;
        let mut expected = now.normals.clone();
        for (tube, (kind, frames)) in records(&now, k).into_iter().zip(tubes(&job)) {
            if direction(last_chord(&spline_points(kind, &frames))).is_none() {
                let at = 3 * (tube[3] + 64 * tube[2] - 55) as usize;
                expected[at..at + 3].fill(0.0);
                changed += 1;
            }
        }
        let words = |b: &[f32]| b.iter().map(|x| x.to_bits()).collect::<Vec<_>>();
        assert_eq!(words(&rust.normals), words(&expected));
        assert_eq!(words(&rust.positions), words(&now.positions));
        assert_eq!(words(&rust.boxes), words(&now.boxes));
        assert_eq!(words(&rust.floats), words(&now.floats));
        assert_eq!((rust.tags, rust.triangles), (now.tags, now.triangles));
        assert_eq!((rust.tubes, rust.words), (now.tubes, now.words));
    }
    assert!(changed > 2000, "{changed}");
}

/// How many of the requests of these calls this mistake changes the answer to.
fn shown_by(m: Mutation, calls: &[u8]) -> usize {
    let shows = |r: &Request| wrong::with(Some(m), || answer(r)) != answer(r);
    requests()
        .filter(|r| calls.contains(&r.call) && shows(r))
        .count()
}

#[test]
fn requests_for_caps_show_mistakes_about_caps() {
    for &m in Mutation::ALL {
        if m.name().starts_with("Cap") || m == Mutation::EndCapSampleTangent {
            let shown = shown_by(m, &[BUILD]);
            println!("{}: {shown} of {REQUESTS}", m.name());
            assert!(shown >= 100, "{}: {shown}", m.what());
        }
    }
    let parties = shown_by(Mutation::CapZero, &[BUILD_SHARE]);
    assert!(parties >= 50, "{parties}");
    let r = party_without_chord();
    assert_eq!(answer(&r)[0], 0);
    let zeros = wrong::with(Some(Mutation::CapZero), || answer(&r));
    assert_ne!(zeros, answer(&r));
}
