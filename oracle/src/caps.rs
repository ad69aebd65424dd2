//! Jobs whose tubes end in two spline points at one place, or nearly, so that an end cap has no chord to take its normal from, or one of which
//! little is left: coils and helices by their last two C-alphas, sheets by their smoothed points. The place is near 0, where squares vanish, or
//! anywhere up to the limit, where the last derivative is what rounding leaves of it.

use crate::{
    job::{LIMIT, NONE, RawJob},
    jobs::{atom, plus, segment},
    rng::Rng,
    tied::LEAST,
};

type Point = [f64; 3];

/// 2^-75: its square, 2^-150, is rounded to 0, and that of the next f32 is not.
const VANISHES: f64 = f64::from_bits((1023 - 75) << 52);

fn next_f32(x: f32) -> f32 {
    f32::from_bits(x.to_bits() + 1)
}

// ── The place where a tube ends ───────────────────────────────────────────────

/// Of some size, exact or with a fraction that f32 has to round.
fn coordinate(rng: &mut Rng, size: u64) -> f64 {
    let sign = rng.pick(&[1.0, -1.0]);
    let x = match size {
        0 => 0.0,
        1 => rng.below(8) as f64 * 0.5,
        2 => rng.below(60) as f64 / 10.0,
        3 => rng.below(60_000) as f64 / 1000.0,
        4 => rng.real(0.0, 60.0),
        5 => rng.real(0.0, 0.1),
        6 => LIMIT - rng.below(100) as f64 / 8.0,
        _ => LIMIT - rng.real(0.0, 12_000.0),
    };
    sign * x
}

fn place(rng: &mut Rng) -> Point {
    let size = rng.below(8);
    let alike = rng.percent(50);
    [0; 3].map(|_| {
        let other = rng.pick(&[0, 0, 1, 2, 4]);
        coordinate(rng, if alike { size } else { other })
    })
}

/// How far apart two coordinates about 0 are: their square vanishes, or just not, or the distance is under 1e-8 or about it.
fn gap(rng: &mut Rng) -> f64 {
    let tiny = 1e-8_f32;
    let sign = rng.pick(&[1.0, -1.0]);
    let gap = match rng.below(10) {
        0..=2 => rng.pick(&[LEAST, 1e-40, 1e-30, 1e-25, 1e-24, 1e-23, VANISHES]),
        3..=4 => 10f64.powf(rng.real(-45.0, -22.58)),
        5 => rng.pick(&[next_f32(VANISHES as f32) as f64, 3e-23, 4e-23, 1e-22]),
        6..=7 => 10f64.powf(rng.real(-22.5, -8.0)),
        8 => 10f64.powf(rng.real(-9.0, -7.5)),
        _ => rng.pick(&[
            f32::from_bits(tiny.to_bits() - 1) as f64,
            tiny as f64,
            next_f32(tiny) as f64,
            5e-9,
        ]),
    };
    sign * gap
}

/// Another f64 that is the same f32, or the same f64 where none is found.
fn same_f32(rng: &mut Rng, x: f64) -> f64 {
    let other = x * (1.0 + rng.real(-1.0, 1.0) * 2f64.powi(-24));
    let within = other.abs() <= LIMIT && other as f32 == x as f32;
    if within { other } else { x }
}

/// The last point and the one before it, which may move `p` to 0 on an axis.
fn last_two(rng: &mut Rng, mut p: Point) -> [Point; 2] {
    let mut last = p;
    match rng.below(20) {
        0..=6 => {}
        7..=8 => last = p.map(|x| if x == 0.0 { -x } else { x }),
        9..=11 => last = p.map(|x| same_f32(rng, x)),
        12 => {
            let axis = rng.below(3) as usize;
            last[axis] = next_f32(p[axis] as f32).clamp(-LIMIT as f32, LIMIT as f32) as f64;
        }
        _ => {
            let one = rng.below(3) as usize;
            let others = rng.pick(&[0, 0, 40, 100]);
            let about = rng.pick(&[0.0, -0.0, 0.0, 1e-22, -1e-20, 1e-18]);
            for axis in 0..3 {
                if axis == one || rng.percent(others) {
                    p[axis] = about;
                    last[axis] = about + gap(rng);
                }
            }
        }
    }
    [p, last]
}

// ── The points before it ──────────────────────────────────────────────────────

fn step(rng: &mut Rng, size: f64) -> Point {
    let mut axis = [0.0; 3];
    axis[rng.below(3) as usize] = rng.pick(&[4.0, -4.0, 3.0, 1.0, 4.4, -3.7]) * size;
    match rng.below(10) {
        0..=3 => axis,
        4 => [0.0; 3],
        5 => rng.direction().map(|x| (x * 38.0).round() / 10.0 * size),
        _ => rng.direction().map(|x| x * 3.8 * size),
    }
}

/// `n` points up to `to`, each at most 5 from the next and within the limit, if steps are.
fn way_to(rng: &mut Rng, to: Point, n: usize, size: f64) -> Vec<Point> {
    let mut points = vec![to];
    let straight = rng.percent(40).then(|| step(rng, size));
    while points.len() < n {
        let back = straight.unwrap_or_else(|| step(rng, size));
        let from = points[points.len() - 1];
        let p = plus(from, back, 1.0);
        let out = p.iter().any(|x| x.abs() > LIMIT);
        points.push(if out { plus(from, back, -1.0) } else { p });
    }
    points.reverse();
    points
}

/// `n` points of which the last `same` are at one place, but for what `last_two` does to the last.
fn ending(rng: &mut Rng, n: usize, same: usize) -> Vec<Point> {
    let there = place(rng);
    let [p, last] = last_two(rng, there);
    let same = same.clamp(2, n);
    let mut points = way_to(rng, p, n - same + 1, 1.0);
    points.resize(n - 1, p);
    points.push(last);
    points
}

// ── Sheets, whose points are smoothed ─────────────────────────────────────────

/// Where three passes over these coordinates bring the last but one.
fn smoothed(xs: &[f32]) -> f32 {
    let mut p = xs.to_vec();
    for _ in 0..3 {
        let old = p.clone();
        for i in 1..p.len() - 1 {
            p[i] = (old[i - 1] + old[i] * 2.0 + old[i + 1]) * 0.25;
        }
    }
    p[p.len() - 2]
}

/// The coordinate of the last point but one, such that smoothing brings it to the last one's. It rises with what it is made from.
fn folded_back(xs: &[f64]) -> f64 {
    let mut xs: Vec<f32> = xs.iter().map(|&x| x as f32).collect();
    let (n, to) = (xs.len(), xs[xs.len() - 1]);
    let (mut low, mut high) = (-LIMIT, LIMIT);
    for _ in 0..60 {
        xs[n - 2] = ((low + high) * 0.5) as f32;
        match smoothed(&xs).partial_cmp(&to) {
            Some(std::cmp::Ordering::Less) => low = xs[n - 2] as f64,
            Some(std::cmp::Ordering::Greater) => high = xs[n - 2] as f64,
            _ => break,
        }
    }
    xs[n - 2] as f64
}

/// C-alphas apart from each other whose last two points smoothing brings together: it folds back by as much as they lead on.
fn folded(rng: &mut Rng, n: usize) -> Vec<Point> {
    let to = place(rng);
    let size = rng.pick(&[0.05, 0.1, 0.125, 0.25]);
    let mut points = way_to(rng, to, n, size);
    for axis in 0..3 {
        let xs: Vec<f64> = points.iter().map(|p| p[axis]).collect();
        points[n - 2][axis] = folded_back(&xs);
    }
    points
}

/// Smoothing reaches three points further than the last two: five at one place stay there, as do all.
fn strand(rng: &mut Rng) -> Vec<Point> {
    let n = rng.pick(&[2, 2, 3, 3, 4, 5, 6, 7, 8]);
    match rng.below(10) {
        0..=2 => ending(rng, n, n),
        3..=5 => ending(rng, n.max(6), 5),
        6..=7 => folded(rng, n.max(3)),
        _ => {
            let same = rng.between(2, 4) as usize;
            ending(rng, n, same)
        }
    }
}

fn thread(rng: &mut Rng) -> Vec<Point> {
    let n = rng.pick(&[2, 2, 3, 3, 3, 4, 5, 7]);
    let same = rng.pick(&[2, 2, 2, 2, 3, n]);
    ending(rng, n, same)
}

// ── Jobs ──────────────────────────────────────────────────────────────────────

/// The next tube's residues, with a segment of some kind over them or none.
fn add_tube(rng: &mut Rng, job: &mut RawJob, chain: u16) {
    let kind = rng.pick(&[
        None,
        None,
        Some(0),
        Some(1),
        Some(1),
        Some(2),
        Some(2),
        Some(2),
    ]);
    let mut points = if kind == Some(2) {
        strand(rng)
    } else {
        thread(rng)
    };
    // A coil whose last point is its neighbour's.
    let lent = kind.is_none() && rng.percent(25);
    if lent {
        let last = points[points.len() - 1];
        points.extend(way_to(rng, last, 2, 1.0).first());
    }
    let first = 2 * job.residues as u32;
    let oxygens = rng.pick(&[0, 50, 100]);
    for &ca in &points {
        let (serial, residue) = (2 * job.residues as u32, job.residues);
        job.atoms.push(atom(serial, 1, residue, chain, ca));
        if rng.percent(oxygens) {
            let o = plus(ca, rng.direction(), 2.4).map(|x| x.clamp(-LIMIT, LIMIT));
            job.atoms.push(atom(serial + 1, 2, residue, chain, o));
        }
        job.residues += 1;
    }
    let end = 2 * job.residues as u32 - 1;
    if let Some(kind) = kind {
        job.segments.push(segment(kind, first, end));
    }
    if lent {
        job.segments.push(segment(rng.below(3) as u8, end - 3, end));
    }
    // The last residue's C-alpha again: a coil takes the first, a segment the last.
    if rng.percent(5) {
        let last = points[points.len() - 1];
        let again = way_to(rng, last, 2, 1.0)[0];
        job.atoms
            .push(atom(end - 1, 1, job.residues - 1, chain, again));
    }
}

/// One to three such tubes, each in a chain of its own or all in none.
pub fn capped(rng: &mut Rng) -> RawJob {
    let mut job = RawJob::default();
    let chains = rng.percent(70);
    for tube in 0..rng.pick(&[1, 1, 2, 2, 3]) {
        if chains {
            job.visible.push(!rng.percent(5) as u8);
        }
        add_tube(rng, &mut job, if chains { tube } else { NONE });
        job.residues += rng.percent(70) as u16;
    }
    job
}
