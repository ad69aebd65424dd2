//! The generator's jobs: realistic proteins, and whatever else 01 makes possible in a job that it accepts (those at the limits of the
//! counts aside, which may be one past them).

use crate::{
    job::{LIMIT, MAX_CHAINS, MAX_RESIDUES, NONE, RawAtom, RawJob, RawSegment},
    rng::Rng,
    tubes::MAX_VERTICES,
};

pub fn plus(a: [f64; 3], b: [f64; 3], s: f64) -> [f64; 3] {
    [a[0] + b[0] * s, a[1] + b[1] * s, a[2] + b[2] * s]
}

/// Three decimals, as files give them.
fn thousandths(p: [f64; 3]) -> [f64; 3] {
    p.map(|x| (x * 1000.0).round() / 1000.0)
}

pub fn atom(serial: u32, role: u8, residue: u16, chain: u16, xyz: [f64; 3]) -> RawAtom {
    RawAtom {
        serial,
        role,
        residue,
        chain,
        xyz,
    }
}

pub fn segment(kind: u8, start: u32, end: u32) -> RawSegment {
    RawSegment { kind, start, end }
}

/// A protein that is being written, one stretch of a chain after another.
struct Protein {
    job: RawJob,
    /// The next atom's serial and the next residue.
    serial: u32,
    residue: u64,
    /// How often, in a hundred, something is as it should not be.
    faults: u64,
    chain: u16,
    p: [f64; 3],
}

/// A protein as files hold it: stretches of helix, strand and loop, with what goes wrong in real files.
fn protein(rng: &mut Rng, residues: u64) -> RawJob {
    let mut it = Protein {
        job: RawJob::default(),
        serial: rng.between(1, 3) as u32,
        residue: 0,
        faults: rng.pick(&[0, 3, 10]),
        chain: NONE,
        p: [0.0; 3],
    };
    while it.residue < residues {
        it.chain = NONE;
        if rng.percent(96) {
            it.chain = it.job.visible.len() as u16;
            it.job.visible.push(!rng.percent(20) as u8);
        }
        let end = (it.residue + rng.between(1, residues.max(2) * 2 / 3)).min(residues);
        it.p = [0; 3].map(|_| rng.real(-60.0, 60.0));
        while it.residue < end {
            it.stretch(rng, end - it.residue);
        }
    }
    it.job.residues = it.residue.max(residues) as u16;
    if rng.percent(it.faults * 2) {
        disorder(rng, &mut it.job);
    }
    it.job
}

/// The next C-alpha of a stretch: about 3.8 from the last one.
fn step_on(rng: &mut Rng, p: [f64; 3], kind: u8, step: u64) -> [f64; 3] {
    let angle = step as f64 * 100.0_f64.to_radians();
    match kind {
        1 => plus(p, [angle.cos() * 3.5, angle.sin() * 3.5, 1.5], 1.0),
        2 => plus(p, [3.3, [0.9, -0.9][step as usize % 2], 0.1], 1.0),
        _ => plus(p, rng.direction(), 3.8),
    }
}

impl Protein {
    /// A few residues of one kind, and mostly the segment that marks them.
    fn stretch(&mut self, rng: &mut Rng, most: u64) {
        let kind = rng.below(3) as u8;
        let first = self.serial;
        for step in 0..rng.between(1, 9).min(most) {
            self.p = step_on(rng, self.p, kind, step);
            if rng.percent(self.faults) {
                let gap = rng.pick(&[1.0, 3.0, 8.0, 20.0]);
                self.p = plus(self.p, rng.direction(), gap);
            }
            self.atoms(rng);
            self.residue += 1 + rng.percent(self.faults) as u64;
        }
        if kind > 0 || rng.percent(10) {
            let other = rng.percent(5).then(|| rng.below(3) as u8);
            let end = (self.serial - 1).max(first);
            let marked = segment(other.unwrap_or(kind), first, end);
            self.job.segments.push(marked);
        }
    }

    /// N, C-alpha, C and O of one residue; each may be missing or there twice.
    fn atoms(&mut self, rng: &mut Rng) {
        for (role, far) in [(0, 1.46), (1, 0.0), (0, 1.52), (2, 2.4)] {
            let xyz = plus(self.p, rng.direction(), far);
            if rng.percent(self.faults) {
                continue;
            }
            let twice = rng.percent(self.faults);
            for _ in 0..=twice as u8 {
                let near = plus(xyz, rng.direction(), 0.4 * twice as u8 as f64);
                let none = rng.percent(self.faults / 3);
                let chain = if none { NONE } else { self.chain };
                let residue = self.residue as u16;
                let listed = atom(self.serial, role, residue, chain, thousandths(near));
                self.job.atoms.push(listed);
                self.serial += 1;
            }
        }
    }
}

/// Segments that overlap, are turned round or taken twice, and atoms out of order.
fn disorder(rng: &mut Rng, job: &mut RawJob) {
    for _ in 0..rng.between(1, 3) {
        let (a, s) = (job.atoms.len() as u64, job.segments.len() as u64);
        if a < 2 {
            return;
        }
        let (i, j) = (rng.below(a) as usize, rng.below(a) as usize);
        match rng.below(5) {
            0 => job.atoms.swap(i, j),
            1 if s > 0 => job
                .segments
                .push(job.segments[rng.below(s) as usize].clone()),
            2 => {
                let moved = job.atoms.remove(i);
                job.atoms.push(moved);
            }
            3 => job.atoms[i].residue = job.atoms[j].residue,
            _ => {
                let (start, end) = (job.atoms[i].serial, job.atoms[j].serial);
                job.segments.push(segment(rng.below(3) as u8, start, end));
            }
        }
    }
}

/// A few segments between atoms of the job, and the atoms in another order, or with serials that begin anew.
pub fn out_of_order(rng: &mut Rng, job: &mut RawJob) {
    let n = job.atoms.len();
    if n < 2 {
        return;
    }
    for _ in 0..rng.below(5) {
        let (i, j) = (rng.below(n as u64) as usize, rng.below(n as u64) as usize);
        let (a, b) = (job.atoms[i].serial, job.atoms[j].serial);
        job.segments
            .push(segment(rng.below(3) as u8, a.min(b), a.max(b)));
    }
    let i = rng.below(n as u64) as usize;
    match rng.below(7) {
        0 => job.atoms.rotate_left(i),
        1 => (0..n).for_each(|k| job.atoms.swap(k, rng.below(n as u64) as usize)),
        2 => job.atoms.reverse(),
        3 => job.atoms[i..].reverse(),
        4 => {
            let moved = job.atoms.remove(i);
            job.atoms.push(moved);
        }
        5 => job.atoms[i].serial = 0,
        _ => {
            let again = rng.between(1, n as u64) as u32;
            job.atoms.iter_mut().for_each(|a| a.serial %= again);
        }
    }
}

/// A coordinate out of a small set, so that equal points, straight lines and zeros of both signs are common.
fn odd_coordinate(rng: &mut Rng) -> f64 {
    match rng.below(12) {
        0 => -0.0,
        1 => 0.0,
        2 => rng.real(-2.0, 2.0),
        3 => f64::from_bits(rng.below(1 << 52)),
        4 => rng.real(-1e-7, 1e-7),
        5 => 1.0 + f64::from_bits(0x3E70_0000_0000_0000) * rng.below(4) as f64,
        _ => rng.below(4) as f64,
    }
}

fn odd_residue(rng: &mut Rng, residues: u64) -> u16 {
    if residues == 0 || rng.percent(8) {
        return NONE;
    }
    rng.below(residues) as u16
}

/// Mostly a residue's own chain, so that neighbours share one.
fn odd_chain(rng: &mut Rng, residue: u16, chains: u64, none: u64) -> u16 {
    if chains == 0 || rng.percent(none) {
        return NONE;
    }
    if residue != NONE && rng.percent(70) {
        return (residue as u64 / 4 % chains) as u16;
    }
    rng.below(chains) as u16
}

/// Atoms and segments drawn at random from few serials, residues and chains.
pub fn chaos(rng: &mut Rng) -> RawJob {
    let visible: Vec<u8> = (0..rng.below(4)).map(|_| !rng.percent(30) as u8).collect();
    let residues = rng.pick(&[0, 1, 2, 3, 4, 5, 6, 8, 10]);
    let serials = rng.between(1, 20);
    let serial = |rng: &mut Rng| match rng.below(20) {
        0 => u32::MAX - rng.below(2) as u32,
        _ => rng.below(serials) as u32,
    };
    let far = rng.percent(5);
    let no_chain = rng.pick(&[5, 30, 100]);
    let atoms = (0..rng.below(30))
        .map(|_| {
            let residue = odd_residue(rng, residues as u64);
            let chain = odd_chain(rng, residue, visible.len() as u64, no_chain);
            let xyz = [0; 3].map(|_| {
                let x = odd_coordinate(rng);
                if far { LIMIT - x.abs() } else { x }
            });
            let role = rng.pick(&[1, 1, 1, 2, 2, 0]);
            atom(serial(rng), role, residue, chain, xyz)
        })
        .collect();
    let segments = (0..rng.below(6))
        .map(|_| segment(rng.below(3) as u8, serial(rng), serial(rng)))
        .collect();
    RawJob {
        residues,
        visible,
        segments,
        atoms,
        ..RawJob::default()
    }
}

/// A step between neighbours: around 5.0, straight on, none, or tiny.
fn odd_step(rng: &mut Rng) -> [f64; 3] {
    let just_above = f32::from_bits(0x40A0_0001) as f64;
    let just_below = f32::from_bits(0x409F_FFFF) as f64;
    let steps = [
        [5.0, 0.0, 0.0],
        [0.0, -5.0, 0.0],
        [just_above, 0.0, 0.0],
        [0.0, 0.0, -just_above],
        [just_below, 0.0, 0.0],
        [3.0, 4.0, 0.0],
        [0.0, 3.0, -4.0],
        [3.0, 4.0, 0.0012],
        [3.0, 4.0, 0.003],
        [4.0, 0.0, 0.0],
        [4.0, 0.0, 0.0],
        [-4.0, 0.0, 0.0],
        [0.0, 4.0, 0.0],
        [0.0, 0.0, 4.0],
        [0.0, 0.0, -1.0],
        [0.0, 0.0, 0.0],
        [-0.0, 0.0, 0.0],
        [1e-8, 0.0, 1e-8],
    ];
    let slanted = rng.real(0.85, 0.95);
    match rng.below(4) {
        0 => rng.direction().map(|x| x * 3.8),
        1 => [(1.0 - slanted * slanted).sqrt() * 3.0, 0.0, slanted * 3.0],
        _ => rng.pick(&steps),
    }
}

/// An oxygen in an awkward place: on the line of the chain, nearly on it, on the C-alpha itself.
fn odd_oxygen(rng: &mut Rng, ca: [f64; 3], step: [f64; 3]) -> [f64; 3] {
    match rng.below(6) {
        0 => ca,
        1 => plus(ca, step, 1.0),
        2 => plus(
            plus(ca, step, -0.5),
            rng.direction(),
            10f64.powf(rng.real(-8.0, -4.0)),
        ),
        3 => plus(ca, [0.0, 0.0, 1.0], 2.0),
        _ => plus(ca, rng.direction(), 2.4),
    }
}

/// Where a path begins: at the origin if its steps are tiny.
fn path_start(rng: &mut Rng, tiny: bool) -> [f64; 3] {
    match rng.below(8) {
        0 if !tiny => [LIMIT, -LIMIT, LIMIT - 1.0],
        1 => [-0.0, 0.0, -0.0],
        2 if !tiny => [0; 3].map(|_| rng.below(2000) as f64 - 1000.0),
        _ => [0.0, 0.0, 0.0],
    }
}

/// A few segments over `n` residues with two serials each; some are turned round.
fn mark(rng: &mut Rng, job: &mut RawJob) {
    let n = job.residues as u64;
    for _ in 0..rng.below(4) {
        let (a, b) = (rng.below(n) as u32, rng.below(n) as u32);
        let turned = rng.percent(5);
        let (start, end) = if turned { (a, b) } else { (a.min(b), a.max(b)) };
        let kind = rng.below(3) as u8;
        job.segments.push(segment(kind, 2 * start, 2 * end + 1));
    }
}

/// One path through space with odd steps, residues in order, marked by a few segments.
fn path(rng: &mut Rng, scale: f64) -> RawJob {
    let n = rng.between(2, 14) as u16;
    let mut p = path_start(rng, scale < 0.1);
    let mut job = RawJob {
        residues: n,
        visible: vec![!rng.percent(15) as u8, !rng.percent(50) as u8],
        ..RawJob::default()
    };
    // Residues from here on are of the second chain.
    let split = rng.percent(20).then(|| rng.below(n as u64) as u16);
    let oxygens = rng.pick(&[0, 50, 100]);
    for residue in 0..n {
        let step = odd_step(rng).map(|x| x * scale);
        if residue > 0 {
            let out = plus(p, step, 1.0).iter().any(|x| x.abs() > LIMIT);
            p = plus(p, step, if out { -1.0 } else { 1.0 });
        }
        // A zero of the other sign is the same place.
        let other = rng.percent(20);
        let ca = p.map(|x| if other && x == 0.0 { -x } else { x });
        let chain = split.is_some_and(|s| residue >= s) as u16;
        let serial = 2 * residue as u32;
        if rng.percent(97) {
            job.atoms.push(atom(serial, 1, residue, chain, ca));
        }
        if rng.percent(oxygens) {
            let o = odd_oxygen(rng, ca, step).map(|x| x.clamp(-LIMIT, LIMIT));
            job.atoms.push(atom(serial + 1, 2, residue, chain, o));
        }
        if rng.percent(4) {
            job.atoms
                .push(atom(serial, 1, residue, chain, odd_step(rng)));
        }
    }
    mark(rng, &mut job);
    job
}

/// A straight strand whose oxygens turn by quarters: guides at right angles, which sum to nothing over four residues.
fn quarter_turns(rng: &mut Rng) -> RawJob {
    let n = rng.between(2, 9) as u16;
    let mut job = RawJob {
        residues: n,
        ..RawJob::default()
    };
    let axis = rng.below(3) as usize;
    let lean = rng.pick(&[0.0, 0.0, 1e-7, -1e-8]);
    let uneven = rng.pick(&[0.0, 0.0, 1e-3]);
    for residue in 0..n {
        let mut ca = [0.0; 3];
        ca[axis] = 4.0 * residue as f64;
        let mut o = ca;
        let turn = if rng.percent(90) { residue % 4 } else { 0 };
        let side = (axis + 1 + turn as usize % 2) % 3;
        o[side] += if turn < 2 { 2.0 } else { -2.0 };
        o[axis] += lean;
        o[3 - axis - side] += uneven * rng.unit();
        let serial = 2 * residue as u32;
        job.atoms.push(atom(serial, 1, residue, NONE, ca));
        job.atoms.push(atom(serial + 1, 2, residue, NONE, o));
    }
    let kind = rng.pick(&[2, 2, 1, 0]);
    job.segments.push(segment(kind, 0, 2 * n as u32));
    job
}

/// Very many short tubes over few residues.
fn crowd(rng: &mut Rng) -> RawJob {
    let mut job = path(rng, 0.5);
    let n = job.residues as u64;
    for _ in 0..rng.between(50, 250) {
        let start = rng.below(n) as u32;
        let end = start + rng.below(3) as u32;
        job.segments
            .push(segment(rng.below(3) as u8, 2 * start, 2 * end + 1));
    }
    job
}

/// An ordinary job of few residues.
pub fn small(rng: &mut Rng) -> RawJob {
    match rng.below(5) {
        0..=1 => {
            let residues = rng.between(2, 8);
            protein(rng, residues)
        }
        2 => path(rng, 1.0),
        3 => path(rng, 1e-9),
        _ => chaos(rng),
    }
}

/// Counts of 0 in one place or another, over what is otherwise a small job.
fn with_nothing(rng: &mut Rng) -> RawJob {
    let mut job = chaos(rng);
    match rng.below(5) {
        0 => return RawJob::default(),
        1 => job.atoms.clear(),
        2 => job.segments.clear(),
        3 => {
            job.visible.clear();
            job.atoms.iter_mut().for_each(|a| a.chain = NONE);
        }
        _ => {
            job.residues = 0;
            job.atoms.iter_mut().for_each(|a| a.residue = NONE);
        }
    }
    job
}

/// Counts at their limits. Few atoms: the counts matter here.
fn at_the_limits(rng: &mut Rng) -> RawJob {
    let mut job = chaos(rng);
    match rng.below(4) {
        0 => job.residues = rng.pick(&[511, 512, 513, MAX_RESIDUES - 1, MAX_RESIDUES]),
        1 => job.residues = rng.pick(&[MAX_RESIDUES + 1, u16::MAX]),
        2 => {
            let c = rng.pick(&[MAX_CHAINS - 1, MAX_CHAINS, MAX_CHAINS + 1]);
            job.visible.resize(c as usize, 1);
        }
        _ => {
            job.residues = 512;
            let last = |residue| atom(1, 1, residue, NONE, [residue as f64, 0.0, 0.0]);
            job.atoms.extend([last(510), last(511)]);
        }
    }
    job
}

/// `tubes` overlapping segments over one straight chain whose vertices sum to `v`, if there are such lengths of 2 to `most`.
fn lengths_for(v: u64, tubes: u64, most: u64) -> Option<Vec<u64>> {
    let sum = (v + 54 * tubes) / 64;
    if 64 * sum != v + 54 * tubes || sum < 2 * tubes || sum > most * tubes {
        return None;
    }
    let mut left = sum - 2 * tubes;
    let mut lengths = Vec::new();
    for _ in 0..tubes {
        let more = left.min(most - 2);
        lengths.push(2 + more);
        left -= more;
    }
    Some(lengths)
}

/// A job whose V is exactly `v`: the whole chain is covered, so there is no coil.
pub fn with_vertices(v: u64, most: u64) -> Option<RawJob> {
    let fewest = (v + 53) / (64 * most - 54);
    let lengths = (fewest.max(1)..fewest + 40).find_map(|tubes| lengths_for(v, tubes, most))?;
    let longest = *lengths.iter().max()?;
    Some(RawJob {
        residues: longest as u16,
        segments: lengths
            .iter()
            .map(|&n| segment(1, 0, n as u32 - 1))
            .collect(),
        atoms: (0..longest)
            .map(|i| atom(i as u32, 1, i as u16, NONE, [4.0 * i as f64, 0.0, 0.0]))
            .collect(),
        ..RawJob::default()
    })
}

fn near_the_vertex_limit(rng: &mut Rng) -> RawJob {
    let most = rng.pick(&[64, 100, 256, 512]);
    let v = rng.pick(&[
        MAX_VERTICES,
        MAX_VERTICES,
        MAX_VERTICES - 2,
        MAX_VERTICES + 2,
        1_500_000,
    ]);
    with_vertices(v, most).expect("such lengths exist")
}

/// As many vertices as a batch program must take, or nearly, along a path of steps of 3.8.
fn full(rng: &mut Rng) -> RawJob {
    let v = rng.pick(&[32_714, 33_998, 34_000]);
    let mut job = with_vertices(v, 512).expect("such lengths exist");
    let mut p = [0.0; 3];
    for a in &mut job.atoms {
        p = thousandths(plus(p, rng.direction(), 3.8));
        a.xyz = p;
    }
    for s in &mut job.segments {
        s.kind = rng.below(3) as u8;
    }
    job
}

/// A job that passes checks 1 to 8, but for those made at the limits.
pub fn job(rng: &mut Rng) -> RawJob {
    match rng.below(1000) {
        0..=349 => {
            let residues = rng.pick(&[3, 6, 10, 16, 24, 40]);
            protein(rng, residues)
        }
        350..=599 => chaos(rng),
        600..=799 => path(rng, 1.0),
        800..=819 => quarter_turns(rng),
        820..=899 => {
            // Around 1e-8, where directions vanish.
            let scale = 10f64.powf(rng.real(-10.0, -6.0));
            path(rng, scale)
        }
        900..=959 => with_nothing(rng),
        960..=989 => at_the_limits(rng),
        990..=991 => crowd(rng),
        992..=996 => near_the_vertex_limit(rng),
        997 => full(rng),
        _ => {
            let residues = rng.between(200, 500);
            protein(rng, residues)
        }
    }
}
