//! What the command `ribbon` does, by a plain reading: a PDB file's bytes and a scale into binary STL, with the lines that it tells, or one refusal.

use crate::{
    breaks::{alone, alone_lines, break_lines, breaks, runs},
    calls::{Buffers, Counts, build, list, needs},
    job::{RawJob, Refusal, decode},
    pdb::{job_of, names_of},
    protocol::buffers_before,
    stl::{FACET, HEADER, size, write_stl},
    tubes::MAX_VERTICES,
    wrong::{Mutation, wrong},
};

/// How a run ended.
#[derive(Clone, Copy, Debug, PartialEq)]
pub enum End {
    Written(Counts),
    Refused(Refusal),
    /// The mesh would have no tube.
    Nothing,
}

pub struct Outcome {
    pub end: End,
    /// Standard output: empty unless all went well.
    pub stl: Vec<u8>,
    /// Standard error, line by line.
    pub lines: Vec<String>,
}

impl Outcome {
    /// '0 written, 1 refused (a numbered refusal, or no tube at all)'.
    pub fn status(&self) -> u8 {
        !matches!(self.end, End::Written(_)) as u8
    }
}

// ── The scale ─────────────────────────────────────────────────────────────────

/// 'MM is one to four digits and, if wanted, a point with one to three digits behind it; its value from 0.001 to 1000': in thousandths.
pub fn thousandths(text: &str) -> Option<u32> {
    if wrong(Mutation::RibbonScaleUnasked) {
        return right_thousandths(text).or(Some(1000));
    }
    right_thousandths(text)
}

fn right_thousandths(text: &str) -> Option<u32> {
    let (whole, behind) = match text.split_once('.') {
        Some((whole, behind)) => (whole, Some(behind)),
        None => (text, None),
    };
    let digits = |t: &str, most: usize| {
        (1..=most).contains(&t.len()) && t.bytes().all(|b| b.is_ascii_digit())
    };
    let most = 3 + wrong(Mutation::RibbonFourDecimals) as usize;
    if !digits(whole, 4) || !behind.is_none_or(|b| digits(b, most)) {
        return None;
    }
    let number = |t: &str| t.parse::<u32>().expect("a few digits");
    // "5" behind the point is 500 thousandths.
    let mut part = number(&format!("{:0<3}", behind.unwrap_or("0"))[..3]);
    if wrong(Mutation::RibbonScaleWhole) {
        part = 0;
    }
    let m = 1000 * number(whole) + part;
    let within = (1..=1_000_000).contains(&m);
    (within || wrong(Mutation::RibbonScalePastThousand) && m > 0).then_some(m)
}

/// 'the factor is k = (m as f32) / 1000.0f32 (one rounding, both exact)'.
pub fn factor(m: u32) -> f32 {
    if wrong(Mutation::RibbonTimesThousandth) {
        return m as f32 * 0.001;
    }
    m as f32 / 1000.0
}

/// 'each coordinate of each position is multiplied by k in f32, once'.
fn scale(positions: &mut [f32], m: u32) {
    let k = factor(m);
    for (i, x) in positions.iter_mut().enumerate() {
        if wrong(Mutation::RibbonZUnscaled) && i % 3 == 2 {
            continue;
        }
        if wrong(Mutation::RibbonScaledInDouble) {
            *x = (*x as f64 * (m as f64 / 1000.0)) as f32;
            continue;
        }
        *x *= k;
        if wrong(Mutation::RibbonScaledTwice) {
            *x *= k;
        }
    }
}

// ── The whole run ─────────────────────────────────────────────────────────────

/// A build into buffers that fit it. Past the limit on V there is refusal 10 whatever is lent, so that nothing is.
fn built(bytes: &[u8]) -> Result<(Counts, Buffers), Refusal> {
    let job = decode(bytes)?;
    let tubes = list(&job);
    let r = job.residues.len() as u64;
    let lengths = if tubes.v > MAX_VERTICES {
        needs(0, 0, 0, r)
    } else {
        needs(tubes.k, tubes.v, tubes.t, r)
    };
    let mut b = buffers_before(lengths.map(|n| n as u32));
    let counts = build(bytes, &mut b)?;
    Ok((counts, b))
}

fn written(b: &Buffers, c: Counts) -> Result<Vec<u8>, Refusal> {
    let mut file = vec![0; size(c.t) as usize];
    write_stl(b, c, &mut file)?;
    Ok(file)
}

/// 'facet normals are computed from the scaled positions, as write_stl does'.
fn scaled_stl(b: &mut Buffers, c: Counts, m: u32) -> Result<Vec<u8>, Refusal> {
    let unscaled = b.clone();
    scale(&mut b.positions, m);
    let mut file = written(b, c)?;
    if wrong(Mutation::RibbonNormalsUnscaled) {
        let before = written(&unscaled, c)?;
        let facets = file[HEADER + 4..].chunks_mut(FACET);
        for (facet, old) in facets.zip(before[HEADER + 4..].chunks(FACET)) {
            facet[..12].copy_from_slice(&old[..12]);
        }
    }
    Ok(file)
}

/// 'counts of the job; kinds of its segments (1 helix, 2 sheet)'.
fn read_line(job: &RawJob) -> String {
    let of_kind = |kind: u8| job.segments.iter().filter(|s| s.kind == kind).count();
    let (mut helices, mut strands) = (of_kind(1), of_kind(2));
    if wrong(Mutation::RibbonKindsSwapped) {
        (helices, strands) = (strands, helices);
    }
    format!(
        "read: chains {} residues {} atoms {} helices {helices} strands {strands}",
        job.visible.len(),
        job.residues,
        job.atoms.len()
    )
}

fn refused(mut lines: Vec<String>, r: Refusal) -> Outcome {
    let values: Vec<String> = r.values().iter().map(u32::to_string).collect();
    lines.push(format!("refused {} {}", r.number, values.join(" ")));
    Outcome {
        end: End::Refused(r),
        stl: Vec::new(),
        lines,
    }
}

/// The STL file of a PDB file at so many thousandths of a millimetre for an angstrom.
pub fn ribbon(file: &[u8], m: u32) -> Outcome {
    let job = match job_of(file) {
        Ok(job) => job,
        Err(r) => return refused(Vec::new(), r),
    };
    let mut lines = vec![read_line(&job)];
    let (c, mut b) = match built(&job.bytes()) {
        Ok(mesh) => mesh,
        Err(r) => return refused(lines, r),
    };
    if c.k == 0 && !wrong(Mutation::RibbonEmptyWritten) {
        lines.push("nothing to build: no two C-alphas stand in one tube".to_string());
        return Outcome {
            end: End::Nothing,
            stl: Vec::new(),
            lines,
        };
    }
    lines.push(format!(
        "built: tubes {} vertices {} triangles {}, closed: proved",
        c.k, c.v, c.t
    ));
    let (names, tubes) = (names_of(file), runs(&b.tubes));
    lines.extend(break_lines(&names, &breaks(&names, &tubes)));
    lines.extend(alone_lines(&names, &alone(&job, &tubes)));
    match scaled_stl(&mut b, c, m) {
        Ok(stl) => {
            lines.push(format!("written: {} bytes", stl.len()));
            Outcome {
                end: End::Written(c),
                stl,
                lines,
            }
        }
        Err(r) => refused(lines, r),
    }
}

#[cfg(test)]
mod tests {
    use super::*;

    #[test]
    fn right_scales() {
        let right = [
            ("1", 1000),
            ("2", 2000),
            ("0.5", 500),
            ("12.125", 12_125),
            ("0.001", 1),
            ("1000", 1_000_000),
            ("1000.000", 1_000_000),
            ("999.999", 999_999),
            ("0.05", 50),
            ("0007.10", 7100),
        ];
        for (text, m) in right {
            assert_eq!(thousandths(text), Some(m), "{text}");
        }
    }

    #[test]
    fn wrong_scales() {
        let wrong = [
            "", "0", "0.000", "0000", ".", "1.", ".5", "0.0004", "0.0010", "1000.001", "1001",
            "9999", "00001", "+1", "-1", "1e3", "1,5", " 1", "1 ", "1.5.", "1..5", "x", "inf",
            "NaN", "0x1", "٣", "1.٣", "1\n", "1_0",
        ];
        for text in wrong {
            assert_eq!(thousandths(text), None, "{text:?}");
        }
    }

    /// The factor is the f32 nearest to m / 1000: no other is nearer, by whole numbers. k is n / 2^s with n and s from its bits.
    #[test]
    fn a_factor_is_the_nearest() {
        let apart = |k: f32, m: u32| {
            let bits = k.to_bits();
            let (n, e) = ((bits & 0x7F_FFFF | 0x80_0000) as i128, (bits >> 23) as i32);
            let s = 150 - e;
            assert!((0..=60).contains(&s), "{k}");
            (1000 * n - ((m as i128) << s)).abs() as f64 / (s as f64).exp2()
        };
        for m in (1..=1_000_000).step_by(7) {
            let k = factor(m);
            for other in [k.next_down(), k.next_up()] {
                assert!(apart(k, m) <= apart(other, m), "{m}");
            }
        }
        for (m, k) in [
            (1000, 1.0),
            (500, 0.5),
            (2500, 2.5),
            (12_125, 12.125),
            (1, 0.001),
        ] {
            assert_eq!(factor(m), k);
        }
    }
}
