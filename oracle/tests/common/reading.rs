//! 01's sentences on which tubes a job has, and on the caps of a tube with 02 §6's, read plainly. None of it is the oracle's own code, and none of it is
//! document 000's.

use oracle::job::{NONE, RawAtom, RawJob};

pub type Point = [f32; 3];

/// A residue and the C-alpha position that its tube takes for it.
pub type Frame = (u16, Point);

/// 'Residue's chain: the last atom giving both.'
fn chain(job: &RawJob, residue: u16) -> Option<u16> {
    let gives = |a: &&RawAtom| a.residue == residue && a.chain != NONE;
    job.atoms.iter().rfind(gives).map(|a| a.chain)
}

/// 'No chain counts as visible.'
fn visible(job: &RawJob, residue: u16) -> bool {
    chain(job, residue).is_none_or(|c| job.visible[c as usize] == 1)
}

/// 'Its coil position: the first C-alpha listed.'
fn coil_position(job: &RawJob, residue: u16) -> Option<Point> {
    let is = |a: &&RawAtom| a.role == 1 && a.residue == residue;
    job.atoms.iter().find(is).map(|a| a.xyz.map(|x| x as f32))
}

/// 'Within a segment (serials from start to end inclusive) the last C-alpha .. win; frames ascend by residue.'
fn frames(job: &RawJob, segment: usize) -> Vec<Frame> {
    let s = &job.segments[segment];
    let last = |residue: u16| {
        let within = |a: &&RawAtom| {
            a.role == 1 && a.residue == residue && (s.start..=s.end).contains(&a.serial)
        };
        job.atoms.iter().rfind(within)
    };
    (0..job.residues)
        .filter_map(|r| last(r).map(|a| (r, a.xyz.map(|x| x as f32))))
        .collect()
}

/// 'A segment with fewer than two frames .. covers nothing. Otherwise all its frames become covered, even if hidden.'
fn covered(job: &RawJob) -> Vec<bool> {
    let mut covered = vec![false; job.residues as usize];
    for s in 0..job.segments.len() {
        let frames = frames(job, s);
        if frames.len() >= 2 {
            frames.iter().for_each(|f| covered[f.0 as usize] = true);
        }
    }
    covered
}

/// The pieces of a list, cut between two neighbours where `apart` holds.
fn cut(list: &[Frame], apart: impl Fn(&Frame, &Frame) -> bool) -> Vec<Vec<Frame>> {
    let mut pieces: Vec<Vec<Frame>> = Vec::new();
    for f in list {
        match pieces.last_mut() {
            Some(piece) if !apart(&piece[piece.len() - 1], f) => piece.push(*f),
            _ => pieces.push(vec![*f]),
        }
    }
    pieces
}

/// 'cut where residues are not consecutive or chains differ'
fn runs(job: &RawJob, list: &[Frame]) -> Vec<Vec<Frame>> {
    cut(list, |a, b| {
        a.0 + 1 != b.0 || chain(job, a.0) != chain(job, b.0)
    })
}

/// 'then where the step is greater than 5.0'; 'Pieces under two frames give no tube.'
fn tubes_of(run: &[Frame]) -> Vec<Vec<Frame>> {
    let long = |a: &Frame, b: &Frame| {
        let [x, y, z] = [0, 1, 2].map(|i| b.1[i] - a.1[i]);
        ((x * x + y * y) + z * z).sqrt() > 5.0
    };
    let mut pieces = cut(run, long);
    pieces.retain(|p| p.len() >= 2);
    pieces
}

/// 'each run gains its neighbour before and after if that is covered, has a C-alpha position and shares the chain'
fn extended(job: &RawJob, covered: &[bool], run: &[Frame]) -> Vec<Frame> {
    let neighbour = |of: u16, r: Option<u16>| -> Option<Frame> {
        let r = r.filter(|&r| r < job.residues && covered[r as usize])?;
        let shares = chain(job, r) == chain(job, of);
        coil_position(job, r).filter(|_| shares).map(|p| (r, p))
    };
    let (first, last) = (run[0].0, run[run.len() - 1].0);
    let mut out: Vec<Frame> = neighbour(first, first.checked_sub(1)).into_iter().collect();
    out.extend(run);
    out.extend(neighbour(last, last.checked_add(1)));
    out
}

/// Every tube in order: its kind and its frames.
pub fn tubes(job: &RawJob) -> Vec<(u8, Vec<Frame>)> {
    let mut out = Vec::new();
    for (s, segment) in job.segments.iter().enumerate() {
        let frames = frames(job, s);
        if frames.len() >= 2 && visible(job, frames[0].0) {
            for run in runs(job, &frames) {
                out.extend(tubes_of(&run).into_iter().map(|t| (segment.kind, t)));
            }
        }
    }
    let covered = covered(job);
    let coil: Vec<Frame> = (0..job.residues)
        .filter(|&r| !covered[r as usize] && visible(job, r))
        .filter_map(|r| coil_position(job, r).map(|p| (r, p)))
        .collect();
    for run in runs(job, &coil) {
        let run = extended(job, &covered, &run);
        out.extend(tubes_of(&run).into_iter().map(|t| (0, t)));
    }
    out
}

// ── Caps ──────────────────────────────────────────────────────────────────────

/// 'Every operation is f32 and rounds once': on each axis by itself.
fn on_each_axis(f: impl Fn(usize) -> f32) -> Point {
    [0, 1, 2].map(f)
}

/// 'Length: square root of (xx + yy) + zz.'
pub fn length([x, y, z]: Point) -> f32 {
    ((x * x + y * y) + z * z).sqrt()
}

/// 'Normalising: components times (1 / length)', and 02 §6: 'Normalising a vector of length 0 must say that there is no direction'.
pub fn direction(a: Point) -> Option<Point> {
    let l = length(a);
    (l != 0.0).then(|| a.map(|x| x * (1.0 / l)))
}

/// 'Sheet positions get 3 smoothing passes, ends fixed': 'Keep only the previous neighbour's old value' (02 §3).
pub fn spline_points(kind: u8, frames: &[Frame]) -> Vec<Point> {
    let mut points: Vec<Point> = frames.iter().map(|f| f.1).collect();
    let passes = if kind == 2 { 3 } else { 0 };
    for _ in 0..passes {
        let mut before = points[0];
        for i in 1..points.len() - 1 {
            let (own, after) = (points[i], points[i + 1]);
            points[i] = on_each_axis(|a| ((before[a] + own[a] * 2.0) + after[a]) * 0.25);
            before = own;
        }
    }
    points
}

/// 'The four control points of a span are an array by value, extended linearly at both ends.'
fn control_points(points: &[Point], span: usize) -> [Point; 4] {
    let n = points.len();
    let beyond = |end: Point, inner: Point| on_each_axis(|a| end[a] + (end[a] - inner[a]));
    let first = match span {
        0 => beyond(points[0], points[1]),
        _ => points[span - 1],
    };
    let last = match span + 2 {
        k if k == n => beyond(points[n - 1], points[n - 2]),
        k => points[k],
    };
    [first, points[span], points[span + 1], last]
}

/// The derivative of the doubled curve of a span at its start.
pub fn first_derivative(points: &[Point]) -> Point {
    let [p0, p1, p2, p3] = control_points(points, 0);
    // With t = 0 the two terms in t are added as zeros, of whichever sign.
    on_each_axis(|a| {
        let square = (p0[a] * 2.0 - p1[a] * 5.0 + p2[a] * 4.0 - p3[a]) * 0.0;
        let cube = (-p0[a] + p1[a] * 3.0 - p2[a] * 3.0 + p3[a]) * 0.0;
        (p2[a] - p0[a]) + square + cube
    })
}

/// And at the end of the last: 'the last uses span n-2 with t = 1'.
pub fn last_derivative(points: &[Point]) -> Point {
    let [p0, p1, p2, p3] = control_points(points, points.len() - 2);
    on_each_axis(|a| {
        let square = (p0[a] * 2.0 - p1[a] * 5.0 + p2[a] * 4.0 - p3[a]) * 2.0;
        let cube = (-p0[a] + p1[a] * 3.0 - p2[a] * 3.0 + p3[a]) * 3.0;
        (p2[a] - p0[a]) + square + cube
    })
}

/// 'Halving the tangent, whose 1e-8 test is on the doubled curve' is easy to get wrong.
pub fn tangent(derivative: Point) -> Point {
    if length(derivative) < 1e-8 {
        return [0.0, 1.0, 0.0];
    }
    direction(derivative).expect("a length of 1e-8 or more")
}

/// The last point less the one before it.
pub fn last_chord(points: &[Point]) -> Point {
    let n = points.len();
    on_each_axis(|a| points[n - 1][a] - points[n - 2][a])
}

/// 'Start cap normal: the negated first tangent.'
pub fn start_normal(points: &[Point]) -> Point {
    tangent(first_derivative(points)).map(|x| -x)
}

/// 'end cap: the last normalised chord of the spline points'; 02 §6: where there is no direction 'an end cap then takes the last sample's tangent'.
pub fn end_normal(points: &[Point]) -> Point {
    direction(last_chord(points)).unwrap_or_else(|| tangent(last_derivative(points)))
}
