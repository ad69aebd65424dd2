//! Job bytes (01, 'Job bytes'): what their fields are, how they are written, and decoding with refusals 1 to 8 in 01's order.

use crate::{
    stand_ins::{Atom, AtomRole, BackboneSS, Chain, Residue, SecondaryStructure, Vec3F64},
    wrong::{Mutation, wrong},
};

/// 01: 'For residue or chain, 65535 means none.'
pub const NONE: u16 = 65535;
/// 01: 'C is at most 255, R at most 16,384.'
pub const MAX_CHAINS: u16 = 255;
pub const MAX_RESIDUES: u16 = 16_384;
/// 01, refusal 8: 'a coordinate of any atom not within -16384 to 16384'.
pub const LIMIT: f64 = 16384.0;

/// A refusal's number and the values that it carries: K, V, T for 11, one value for all others.
#[derive(Clone, Copy, Debug, PartialEq, Eq)]
pub struct Refusal {
    pub number: u32,
    pub carried: [u32; 3],
}

impl Refusal {
    pub fn new(number: u32, carried: u32) -> Self {
        Self {
            number,
            carried: [carried, 0, 0],
        }
    }

    pub fn values(&self) -> &[u32] {
        if self.number == 11 {
            &self.carried
        } else {
            &self.carried[..1]
        }
    }
}

#[derive(Clone, Debug, PartialEq)]
pub struct RawSegment {
    pub kind: u8,
    pub start: u32,
    pub end: u32,
}

#[derive(Clone, Debug)]
pub struct RawAtom {
    pub serial: u32,
    pub role: u8,
    pub residue: u16,
    pub chain: u16,
    pub xyz: [f64; 3],
}

/// A job's fields as they stand in the bytes, right or wrong.
#[derive(Clone, Debug)]
pub struct RawJob {
    pub version: u8,
    pub residues: u16,
    pub visible: Vec<u8>,
    pub segments: Vec<RawSegment>,
    pub atoms: Vec<RawAtom>,
}

impl Default for RawJob {
    fn default() -> Self {
        Self {
            version: 1,
            residues: 0,
            visible: Vec::new(),
            segments: Vec::new(),
            atoms: Vec::new(),
        }
    }
}

fn u16_at(b: &[u8], i: usize) -> u16 {
    u16::from_be_bytes(b[i..i + 2].try_into().unwrap())
}

fn u32_at(b: &[u8], i: usize) -> u32 {
    u32::from_be_bytes(b[i..i + 4].try_into().unwrap())
}

fn f64_at(b: &[u8], i: usize) -> f64 {
    f64::from_bits(u64::from_be_bytes(b[i..i + 8].try_into().unwrap()))
}

/// C, R, S, A of a job of at least 13 bytes.
fn counts(b: &[u8]) -> [u16; 4] {
    [u16_at(b, 5), u16_at(b, 7), u16_at(b, 9), u16_at(b, 11)]
}

/// 01: 'Whole job: 13 + C + 9S + 33A bytes.'
fn size([c, _, s, a]: [u16; 4]) -> usize {
    13 + c as usize + 9 * s as usize + 33 * a as usize
}

impl RawJob {
    pub fn bytes(&self) -> Vec<u8> {
        let counts = [
            self.visible.len() as u16,
            self.residues,
            self.segments.len() as u16,
            self.atoms.len() as u16,
        ];
        let mut b = Vec::with_capacity(size(counts));
        b.extend([0; 4]);
        b.push(self.version);
        for n in counts {
            b.extend(n.to_be_bytes());
        }
        b.extend(&self.visible);
        b.extend(record_bytes(&self.segments));
        for a in &self.atoms {
            b.extend(a.serial.to_be_bytes());
            b.push(a.role);
            b.extend(a.residue.to_be_bytes());
            b.extend(a.chain.to_be_bytes());
            for x in a.xyz {
                b.extend(x.to_bits().to_be_bytes());
            }
        }
        fix_length(&mut b);
        b
    }

    /// The fields of bytes whose size agrees with their counts.
    pub fn of(b: &[u8]) -> Option<RawJob> {
        if b.len() < 13 || size(counts(b)) != b.len() {
            return None;
        }
        let [c, residues, s, a] = counts(b);
        let segments_at = 13 + c as usize;
        let atoms_at = segments_at + 9 * s as usize;
        Some(RawJob {
            version: b[4],
            residues,
            visible: b[13..segments_at].to_vec(),
            segments: records_of(&b[segments_at..atoms_at]),
            atoms: b[atoms_at..atoms_at + 33 * a as usize]
                .chunks(33)
                .map(|r| RawAtom {
                    serial: u32_at(r, 0),
                    role: r[4],
                    residue: u16_at(r, 5),
                    chain: u16_at(r, 7),
                    xyz: [f64_at(r, 9), f64_at(r, 17), f64_at(r, 25)],
                })
                .collect(),
        })
    }

    fn bad_atom(&self, a: &RawAtom) -> bool {
        a.role > 2
            || a.residue != NONE && a.residue >= self.residues
            || a.chain != NONE && a.chain as usize >= self.visible.len()
    }
}

/// Segment records as they stand in a job, and in the slice of a party.
pub fn record_bytes(segments: &[RawSegment]) -> Vec<u8> {
    let record = |s: &RawSegment| {
        let mut b = vec![s.kind];
        b.extend(s.start.to_be_bytes());
        b.extend(s.end.to_be_bytes());
        b
    };
    segments.iter().flat_map(record).collect()
}

/// The whole records of these bytes; what stands behind the last one is left out.
pub fn records_of(b: &[u8]) -> Vec<RawSegment> {
    b.chunks_exact(9)
        .map(|r| RawSegment {
            kind: r[0],
            start: u32_at(r, 1),
            end: u32_at(r, 5),
        })
        .collect()
}

/// Makes the length field that of the bytes after it.
pub fn fix_length(b: &mut [u8]) {
    if b.len() >= 4 {
        let n = b.len() as u32 - 4;
        b[..4].copy_from_slice(&n.to_be_bytes());
    }
}

fn far_atom(a: &RawAtom) -> bool {
    // NaN is within nothing.
    let within = |x: f64| (-LIMIT..=LIMIT).contains(&x);
    if wrong(Mutation::EightForCaOnly) && a.role != 1 {
        return false;
    }
    if wrong(Mutation::LimitExclusive) && a.xyz.iter().any(|x| x.abs() == LIMIT) {
        return true;
    }
    !a.xyz.iter().all(|&x| within(x))
}

/// A job that passed checks 1 to 8, as document 000 takes it.
pub struct Job {
    pub chains: Vec<Chain>,
    pub residues: Vec<Residue>,
    pub backbone: Vec<BackboneSS>,
    pub atoms: Vec<Atom>,
}

fn refuse_first<T>(number: u32, list: &[T], bad: impl Fn(&T) -> bool) -> Result<(), Refusal> {
    match list.iter().position(bad) {
        Some(i) => Err(Refusal::new(number, i as u32)),
        None => Ok(()),
    }
}

/// Checks 1 to 4, and C, R, S, A.
pub fn sizes(b: &[u8]) -> Result<[u16; 4], Refusal> {
    if b.len() < 13 || u32_at(b, 0) as usize != b.len() - 4 {
        return Err(Refusal::new(1, 0));
    }
    if b[4] != 1 {
        return Err(Refusal::new(2, b[4] as u32));
    }
    let [c, r, _, _] = counts(b);
    if c > MAX_CHAINS || r > MAX_RESIDUES {
        return Err(Refusal::new(3, 0));
    }
    if size(counts(b)) != b.len() {
        return Err(Refusal::new(4, 0));
    }
    Ok(counts(b))
}

pub fn decode(b: &[u8]) -> Result<Job, Refusal> {
    sizes(b)?;
    let raw = RawJob::of(b).expect("a job of its counts");
    refuse_first(5, &raw.visible, |&v| v > 1)?;
    refuse_first(6, &raw.segments, |s| s.kind > 2)?;
    if wrong(Mutation::SevenWithEight) {
        for (i, a) in raw.atoms.iter().enumerate() {
            if raw.bad_atom(a) || far_atom(a) {
                let number = if raw.bad_atom(a) { 7 } else { 8 };
                return Err(Refusal::new(number, i as u32));
            }
        }
    }
    refuse_first(7, &raw.atoms, |a| raw.bad_atom(a))?;
    refuse_first(8, &raw.atoms, far_atom)?;
    Ok(job_of(&raw))
}

fn atom_of(a: &RawAtom) -> Atom {
    let some = |i: u16| (i != NONE).then_some(i as usize);
    let [x, y, z] = a.xyz;
    Atom {
        serial_number: a.serial,
        posit: Vec3F64 { x, y, z },
        role: match a.role {
            1 => Some(AtomRole::C_Alpha),
            2 => Some(AtomRole::O_Backbone),
            _ => None,
        },
        residue: some(a.residue),
        chain: some(a.chain),
    }
}

fn job_of(raw: &RawJob) -> Job {
    Job {
        chains: raw
            .visible
            .iter()
            .map(|&v| Chain { visible: v == 1 })
            .collect(),
        residues: vec![Residue; raw.residues as usize],
        backbone: raw
            .segments
            .iter()
            .map(|s| BackboneSS {
                start_sn: s.start,
                end_sn: s.end,
                sec_struct: match s.kind {
                    0 => SecondaryStructure::Coil,
                    1 => SecondaryStructure::Helix,
                    _ => SecondaryStructure::Sheet,
                },
            })
            .collect(),
        atoms: raw.atoms.iter().map(atom_of).collect(),
    }
}
