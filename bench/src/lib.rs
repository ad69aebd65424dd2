//! What the benches share: jobs, the proved library's calls on vectors, and the fastest of runs.

use std::time::Instant;

use oracle::{
    calls::Buffers,
    job::{RawAtom, RawJob, RawSegment},
};

unsafe extern "C" {
    fn ribbon_build(
        job: *const u8, job_len: usize, positions: *mut f32, positions_len: usize, normals: *mut f32, normals_len: usize,
        tags: *mut u32, tags_len: usize, triangles: *mut u32, triangles_len: usize, tubes: *mut u32, tubes_len: usize,
        boxes: *mut f32, boxes_len: usize, words: *mut u32, words_len: usize, floats: *mut f32, floats_len: usize,
        answer: *mut [u32; 4],
    );
    fn ribbon_plan(
        job: *const u8, job_len: usize, k: usize, words: *mut u32, words_len: usize, floats: *mut f32, floats_len: usize,
        answer: *mut [u32; 9],
    );
}

pub fn proved_build(job: &[u8], b: &mut Buffers) -> [u32; 4] {
    let mut answer = [0; 4];
    // Each vector lends its whole length, and no two overlap.
    unsafe {
        ribbon_build(
            job.as_ptr(), job.len(), b.positions.as_mut_ptr(), b.positions.len(), b.normals.as_mut_ptr(), b.normals.len(),
            b.tags.as_mut_ptr(), b.tags.len(), b.triangles.as_mut_ptr(), b.triangles.len(), b.tubes.as_mut_ptr(), b.tubes.len(),
            b.boxes.as_mut_ptr(), b.boxes.len(), b.words.as_mut_ptr(), b.words.len(), b.floats.as_mut_ptr(), b.floats.len(),
            &mut answer,
        );
    }
    answer
}

pub fn proved_plan(job: &[u8], b: &mut Buffers) -> [u32; 9] {
    let mut answer = [0; 9];
    unsafe {
        ribbon_plan(
            job.as_ptr(), job.len(), 0, b.words.as_mut_ptr(), b.words.len(), b.floats.as_mut_ptr(), b.floats.len(), &mut answer,
        );
    }
    answer
}

/// How the serials of a job's atoms go.
#[derive(Clone, Copy)]
pub enum Serials {
    Ascend,
    /// All but the last atom's do, which is 0.
    LastIsLow,
    /// All but the first atom's do, which is above all others: nothing but that one atom ascends from the front.
    FirstIsHigh,
    /// The second half of the atoms stands before the first.
    TwoRuns,
    Shuffled,
}

/// A chain of `present` residues of `each` atoms, C-alpha first and then O, with `segments` helices and sheets spread over it.
pub fn job(residues: u16, present: u16, each: u32, segments: u16, serials: Serials) -> Vec<u8> {
    let mut atoms = Vec::new();
    for r in 0..present {
        let t = r as f64;
        let (x, y) = ((t * 1.745).cos() * 2.3, (t * 1.745).sin() * 2.3);
        for i in 0..each {
            let d = i as f64 * 0.3;
            atoms.push(RawAtom {
                serial: r as u32 * each + i + 1,
                role: if i < 2 { 1 + i as u8 } else { 0 },
                residue: r,
                chain: 0,
                xyz: [x + d, y - d, (t * 1.5) % 16000.0 + d],
            });
        }
    }
    let n = atoms.len();
    match serials {
        Serials::Ascend => {}
        Serials::LastIsLow => atoms.last_mut().expect("an atom").serial = 0,
        Serials::FirstIsHigh => atoms[0].serial = u32::MAX,
        Serials::TwoRuns => atoms.rotate_left(n / 2),
        Serials::Shuffled => (0..n).for_each(|i| atoms.swap(i, (i * 7919 + 13) % n)),
    }
    let step = (present as u32 / segments.max(1) as u32).max(1);
    let length = (step * 2 / 3).max(2);
    let segments = (0..segments as u32).map(|s| {
        let first = s * step % (present as u32 - length);
        RawSegment {
            kind: 1 + (s % 2) as u8,
            start: first * each + 1,
            end: (first + length) * each,
        }
    });
    let segments = segments.collect();
    RawJob { version: 1, residues, visible: vec![1], segments, atoms }.bytes()
}

/// Buffers for so many vertices, triangles and tubes, and for the scratch of so many residues.
pub fn room(v: usize, t: usize, k: usize, residues: u16) -> Buffers {
    Buffers {
        positions: vec![0.0; 3 * v],
        normals: vec![0.0; 3 * v],
        tags: vec![0; v],
        triangles: vec![0; 3 * t],
        tubes: vec![0; 5 * k],
        boxes: vec![0.0; 6 * k],
        words: vec![0; 8 * residues as usize],
        floats: vec![0.0; 32 * residues as usize],
    }
}

/// A job whose mesh is within the limit, with how many of its residues are present, and its K, V and T. Where segments overlap or add ends,
/// fewer residues are present, so that V stays within its limit.
pub fn fitting(residues: u16, each: u32, segments: u16, serials: Serials) -> (u16, Vec<u8>, [usize; 3]) {
    let mut none = room(0, 0, 0, residues);
    (0..residues)
        .step_by(64)
        .map(|less| residues - less)
        .map(|present| (present, job(residues, present, each, segments, serials)))
        .map(|(present, bytes)| (present, proved_plan(&bytes, &mut none), bytes))
        .find(|(_, plan, _)| plan[0] == 0)
        .map(|(present, plan, bytes)| (present, bytes, [plan[1], plan[2], plan[3]].map(|n| n as usize)))
        .expect("some number of residues fits")
}

/// The fastest run of each in microseconds, taken in turn, so that what else the machine does weighs on all alike: as many rounds as fit into
/// two seconds, at least five.
pub fn fastest<const N: usize>(mut runs: [&mut dyn FnMut(); N]) -> [f64; N] {
    let (began, mut best, mut rounds) = (Instant::now(), [f64::INFINITY; N], 0);
    while rounds < 5 || began.elapsed().as_millis() < 2000 && rounds < 2000 {
        for (run, best) in runs.iter_mut().zip(&mut best) {
            let at = Instant::now();
            run();
            *best = best.min(at.elapsed().as_secs_f64() * 1e6);
        }
        rounds += 1;
    }
    best
}
