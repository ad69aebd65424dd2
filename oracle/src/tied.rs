//! Small jobs whose boxes have equal coordinates to choose from: zeros of both signs. A vertex is at -0 only if the centre of its ring is, and a
//! box ends there only if the ring lies across that axis. Such ends are known only where less than the least f32 is rounded away. So most of
//! these tubes are shorter than what makes a tangent: it falls back to y, and y holds 0 and a few times the least f32.

use crate::{
    job::{NONE, RawJob},
    jobs::{atom, plus, segment},
    rng::Rng,
};

/// 2^-149, the least f32 above 0.
pub const LEAST: f64 = f64::from_bits((1023 - 149) << 52);

/// A C-alpha and the oxygen of the same residue.
type Pair = ([f64; 3], Option<[f64; 3]>);

/// Zeros of both signs and a few times `LEAST`, on one side of them, mostly below.
fn near_zero(rng: &mut Rng, n: usize) -> Vec<f64> {
    let most = rng.pick(&[1, 2, 2, 4, 8]);
    let side = rng.pick(&[-LEAST, -LEAST, -LEAST, LEAST]);
    let some = |rng: &mut Rng| match rng.below(3) {
        0 => rng.pick(&[0.0, -0.0]),
        _ => side * rng.below(most + 1) as f64,
    };
    let mut ys: Vec<f64> = (0..n).map(|_| some(rng)).collect();
    // On the way from 0 to the last one, or from the first one to 0, there is -0.
    let away = side * rng.between(1, most) as f64;
    match rng.below(4) {
        0..=1 => ys[n - 1] = away,
        2 => ys[0] = away,
        _ => {}
    }
    ys
}

/// Down to 0 and half as far up again: behind 0 the curve is below it, by so little that it is rounded to -0.
fn dip(rng: &mut Rng, n: usize) -> Vec<f64> {
    let from = rng.between(59, 70);
    let to = from / 2 - 2 + rng.below(6);
    let ys = [from, 0, to, 2 * to].map(|y| LEAST * y as f64);
    ys[..n].to_vec()
}

/// C-alphas at one place but for steps too short for a curve's tangent; some are long enough for a residue's.
fn huddled(rng: &mut Rng, n: usize) -> Vec<[f64; 3]> {
    let [x, z] = [0; 2].map(|_| rng.pick(&[0.0, 0.0, -0.0, 1.0, -1.0, 3.0, -4.0]));
    let step = rng.pick(&[LEAST, 2.0 * LEAST, 1e-20, 1e-10, 1e-9]);
    let near = |rng: &mut Rng, x: f64| x + rng.pick(&[-0.0, -0.0, step, -step]);
    let ys = if rng.percent(10) {
        dip(rng, n)
    } else {
        near_zero(rng, n)
    };
    let points = ys.into_iter().map(|y| [near(rng, x), y, near(rng, z)]);
    points.collect()
}

/// C-alphas along the axes, straight on or bent, some at the same place; a 0 has either sign.
fn along_axes(rng: &mut Rng, n: usize) -> Vec<[f64; 3]> {
    let mut p = [0; 3].map(|_| rng.pick(&[0.0, -0.0, LEAST, -LEAST, 1.0, -3.0, 4.0]));
    let side = rng.pick(&[1.0, -1.0]);
    let straight = rng.percent(50);
    let mut axis = rng.below(3) as usize;
    let mut points = Vec::new();
    for _ in 0..n {
        points.push(p.map(|x| if x == 0.0 && rng.percent(50) { -x } else { x }));
        p[axis] += side * rng.pick(&[0.0, 1.0, 3.0, 4.0]);
        if !straight {
            axis = rng.below(3) as usize;
        }
    }
    points
}

/// Oxygens for some of them or all, mostly on the side where rings about -0 end with -0.
fn with_oxygens(rng: &mut Rng, points: Vec<[f64; 3]>) -> Vec<Pair> {
    let share = rng.pick(&[0, 50, 100]);
    let oxygen = |rng: &mut Rng, ca| {
        let to = [
            rng.pick(&[-1.0, -1.0, -1.0, -3.0, -0.0, 1.0]),
            rng.pick(&[0.0, -0.0, 1.0, -1.0, LEAST, -LEAST]),
            rng.pick(&[0.0, 0.0, 1.0, 4.0, -0.0, -1.0]),
        ];
        rng.percent(share).then(|| plus(ca, to, 1.0))
    };
    let pairs = points.into_iter().map(|ca| (ca, oxygen(rng, ca)));
    pairs.collect()
}

/// Up to 0, and an oxygen from which the guide has -0 on y: rings about -0 begin with -0.
fn rising(rng: &mut Rng) -> Vec<Pair> {
    let x = rng.pick(&[0.0, -0.0, 1.0, 3.0]);
    let z = rng.pick(&[1e-20, 1e-10, 1e-9, 4e-9]);
    let last = [x, rng.pick(&[0.0, -0.0]), z];
    let to = [
        rng.pick(&[-1.0, -3.0]),
        rng.pick(&[-1.0, -2.0]) * LEAST,
        0.0,
    ];
    vec![([x, -LEAST, 0.0], None), (last, Some(plus(last, to, 1.0)))]
}

/// The next tube's residues, with a segment of some kind over them or none.
fn add_tube(rng: &mut Rng, job: &mut RawJob, chain: u16) {
    let n = rng.between(2, 4) as usize;
    let pairs = match rng.below(20) {
        0 => rising(rng),
        1..=4 => {
            let points = along_axes(rng, n);
            with_oxygens(rng, points)
        }
        _ => {
            let points = huddled(rng, n);
            with_oxygens(rng, points)
        }
    };
    let first = 2 * job.residues as u32;
    for (ca, oxygen) in pairs {
        let (serial, residue) = (2 * job.residues as u32, job.residues);
        job.atoms.push(atom(serial, 1, residue, chain, ca));
        if let Some(o) = oxygen {
            job.atoms.push(atom(serial + 1, 2, residue, chain, o));
        }
        job.residues += 1;
    }
    if rng.percent(75) {
        let last = 2 * job.residues as u32 - 1;
        job.segments.push(segment(rng.below(3) as u8, first, last));
    }
}

/// One to three tubes of two to four residues, each in a chain of its own or all in none.
pub fn tied(rng: &mut Rng) -> RawJob {
    let mut job = RawJob::default();
    let chains = rng.percent(70);
    for tube in 0..rng.between(1, 3) as u16 {
        if chains {
            job.visible.push(!rng.percent(5) as u8);
        }
        add_tube(rng, &mut job, if chains { tube } else { NONE });
        // With no residue between them a coil takes a neighbour.
        job.residues += rng.percent(70) as u16;
    }
    job
}
