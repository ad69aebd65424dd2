//! A second reading of 02 §1, plain and slow: PDB bytes into a version 1 job in a lent buffer, or one of the refusals 12 to 16. It was
//! written from 02's sentences alone, which stand at the places that they decide.

use std::collections::HashMap;

use crate::{
    job::{MAX_CHAINS, MAX_RESIDUES, RawAtom, RawJob, RawSegment, Refusal},
    wrong::{Mutation, wrong},
};

pub const SHORT_LINE: u32 = 12;
pub const BAD_NUMBER: u32 = 13;
pub const ABSENT: u32 = 14;
pub const COUNTS: u32 = 15;
pub const NO_ROOM: u32 = 16;

/// 'A residue is a distinct chain letter, sequence number and insertion code.'
pub type Name = (u8, i64, u8);

/// What an ATOM line says.
struct Atom {
    serial: u32,
    role: u8,
    name: Name,
    xyz: [f64; 3],
}

/// What a HELIX or SHEET line says.
struct Segment {
    kind: u8,
    start: Name,
    end: Name,
}

/// A line that is read, or the number of its own fault, 12 or 13.
enum Line {
    Atom(Result<Atom, u32>),
    Segment(Result<Segment, u32>),
    Other,
}

// ── Lines and columns ─────────────────────────────────────────────────────────

/// 'Lines end at LF, a CR before it dropped'; bytes after the last LF are a line too, and a CR there stays.
fn lines(file: &[u8]) -> Vec<&[u8]> {
    let mut lines: Vec<&[u8]> = file.split(|&b| b == b'\n').collect();
    let last = lines.len() - 1;
    let kept = wrong(Mutation::CrKept);
    let ended = if wrong(Mutation::CrAtEndDropped) {
        last + 1
    } else {
        last
    };
    for line in lines[..ended].iter_mut().filter(|_| !kept) {
        *line = line.strip_suffix(b"\r").unwrap_or(line);
    }
    if wrong(Mutation::LastLineLost) {
        lines.pop();
    }
    lines
}

/// Columns are counted from 1, the last one included.
fn columns(line: &[u8], first: usize, last: usize) -> &[u8] {
    &line[first - 1..last]
}

fn column(line: &[u8], at: usize) -> u8 {
    line[at - 1]
}

/// 'Record names are compared as fixed bytes': all six must be there.
fn is(line: &[u8], name: &[u8; 6]) -> bool {
    if wrong(Mutation::NamesTrimmed) {
        return line.starts_with(name.trim_ascii());
    }
    line.starts_with(name)
}

/// 'until the first ENDMDL or a second MODEL': the lines before it.
fn lines_read(file: &[u8]) -> Vec<&[u8]> {
    let mut models = 0;
    let mut read = lines(file);
    let stop = read.iter().position(|line| {
        models += is(line, b"MODEL ") as u32;
        is(line, b"ENDMDL") && !wrong(Mutation::EndmdlRead)
            || models == 2 && !wrong(Mutation::SecondModelRead)
    });
    read.truncate(stop.unwrap_or(read.len()));
    read
}

// ── Numbers ───────────────────────────────────────────────────────────────────

/// What stands between blanks; blank is byte 32 alone.
fn between_blanks(field: &[u8]) -> &[u8] {
    let blank = |b: &u8| *b == b' ' || wrong(Mutation::TabIsBlank) && *b == b'\t';
    let first = field.iter().position(|b| !blank(b)).unwrap_or(field.len());
    if wrong(Mutation::NoBlankAfter) {
        return &field[first..];
    }
    let end = field
        .iter()
        .rposition(|b| !blank(b))
        .map_or(first, |i| i + 1);
    &field[first..end]
}

/// One digit or more.
fn digits(text: &[u8]) -> Result<i64, u32> {
    if text.is_empty() || !text.iter().all(u8::is_ascii_digit) {
        return Err(BAD_NUMBER);
    }
    Ok(text.iter().fold(0, |n, d| 10 * n + (d - b'0') as i64))
}

/// 'an optional minus': whether there is one, and what follows it.
fn sign(text: &[u8]) -> (i64, &[u8]) {
    match text.strip_prefix(b"-") {
        Some(rest) => (-1, rest),
        None => (1, text),
    }
}

/// 'Serials have no minus.'
fn serial(field: &[u8]) -> Result<u32, u32> {
    let mut text = between_blanks(field);
    if wrong(Mutation::SerialMinus) {
        text = sign(text).1;
    }
    digits(text).map(|n| n as u32)
}

fn sequence_number(field: &[u8]) -> Result<i64, u32> {
    let (sign, text) = sign(between_blanks(field));
    let n = digits(text).map(|n| sign * n);
    if wrong(Mutation::SequenceByText) {
        let text = field.iter().fold(0, |n, &b| 256 * n + b as i64);
        return n.map(|_| text);
    }
    n
}

/// 'Coordinates end in a point and three digits'; 'whole thousandths, zero always +0, divided once by 1000 in f64'.
fn coordinate(field: &[u8]) -> Result<f64, u32> {
    let (sign, text) = sign(between_blanks(field));
    let point = text.len().checked_sub(4).ok_or(BAD_NUMBER)?;
    let (mut whole, decimals) = (&text[..point], &text[point + 1..]);
    if wrong(Mutation::PointFirst) && whole.is_empty() {
        whole = b"0";
    }
    if text[point] != b'.' {
        return Err(BAD_NUMBER);
    }
    let thousandths = sign * (1000 * digits(whole)? + digits(decimals)?);
    if wrong(Mutation::MinusZeroKept) && thousandths == 0 {
        return Ok(0.0 * sign as f64);
    }
    if wrong(Mutation::TimesThousandth) {
        return Ok(thousandths as f64 * 0.001);
    }
    Ok(thousandths as f64 / 1000.0)
}

// ── Records ───────────────────────────────────────────────────────────────────

/// 12 where a line ends before the last column that is read.
fn reaches(line: &[u8], last: usize) -> Result<(), u32> {
    if line.len() < last {
        return Err(SHORT_LINE);
    }
    Ok(())
}

/// '" CA " in columns 13 to 16 is C-alpha; "CA  " is calcium and has role 0. " O  " is backbone oxygen.'
fn role(name: &[u8]) -> u8 {
    match name {
        b" CA " => 1,
        b" O  " => 2,
        b"CA  " if wrong(Mutation::CalciumIsCa) => 1,
        [b' ', b'O', ..] if wrong(Mutation::AnyOxygen) => 2,
        _ => 0,
    }
}

fn name(
    line: &[u8],
    chain: usize,
    first: usize,
    last: usize,
    insertion: usize,
) -> Result<Name, u32> {
    let n = sequence_number(columns(line, first, last))?;
    let chain = column(line, chain);
    let insertion = column(line, insertion);
    if wrong(Mutation::NoInsertionCode) {
        return Ok((chain, n, b' '));
    }
    Ok((chain, n, insertion))
}

fn atom(line: &[u8]) -> Result<Atom, u32> {
    reaches(
        line,
        if wrong(Mutation::LastColumn66) {
            66
        } else {
            54
        },
    )?;
    Ok(Atom {
        serial: serial(columns(line, 7, 11))?,
        role: role(columns(line, 13, 16)),
        name: name(line, 22, 23, 26, 27)?,
        xyz: [
            coordinate(columns(line, 31, 38))?,
            coordinate(columns(line, 39, 46))?,
            coordinate(columns(line, 47, 54))?,
        ],
    })
}

fn helix(line: &[u8]) -> Result<Segment, u32> {
    reaches(line, 38)?;
    Ok(Segment {
        kind: 1,
        start: name(line, 20, 22, 25, 26)?,
        end: name(line, 32, 34, 37, 38)?,
    })
}

fn sheet(line: &[u8]) -> Result<Segment, u32> {
    if wrong(Mutation::SheetAsHelix) {
        return helix(line).map(|s| Segment { kind: 2, ..s });
    }
    reaches(line, 38)?;
    Ok(Segment {
        kind: 2,
        start: name(line, 22, 23, 26, 27)?,
        end: name(line, 33, 34, 37, 38)?,
    })
}

fn record(line: &[u8]) -> Line {
    if is(line, b"ATOM  ") || wrong(Mutation::HetatmRead) && is(line, b"HETATM") {
        Line::Atom(atom(line))
    } else if is(line, b"HELIX ") {
        Line::Segment(helix(line))
    } else if is(line, b"SHEET ") {
        Line::Segment(sheet(line))
    } else {
        Line::Other
    }
}

// ── The whole file ────────────────────────────────────────────────────────────

/// What is known of a residue: its number by first appearance, and the serials of its first and its last atom.
struct Residue {
    number: usize,
    first: u32,
    last: u32,
}

/// The residues of all ATOM lines that are not at fault themselves.
fn residues(records: &[Line]) -> HashMap<Name, Residue> {
    let mut found: HashMap<Name, Residue> = HashMap::new();
    for record in records {
        let Line::Atom(Ok(atom)) = record else {
            continue;
        };
        let number = found.len();
        let residue = found.entry(atom.name).or_insert(Residue {
            number,
            first: atom.serial,
            last: atom.serial,
        });
        residue.last = atom.serial;
    }
    found
}

/// 'The first line at fault, carried from 1, decides among 12 to 14, lowest first.'
fn first_fault(records: &[Line], residues: &HashMap<Name, Residue>) -> Option<Refusal> {
    let fault = |record: &Line| match record {
        Line::Atom(Err(number)) | Line::Segment(Err(number)) => Some(*number),
        Line::Segment(Ok(s)) if !residues.contains_key(&s.start) => Some(ABSENT),
        Line::Segment(Ok(s)) if !residues.contains_key(&s.end) => {
            (!wrong(Mutation::AbsentEndTaken)).then_some(ABSENT)
        }
        _ => None,
    };
    let mut faults = records
        .iter()
        .enumerate()
        .filter_map(|(i, record)| Some(Refusal::new(fault(record)?, i as u32 + 1)));
    if wrong(Mutation::LaterFault) {
        return faults.next_back();
    }
    if wrong(Mutation::LowestOfAll) {
        return faults.min_by_key(|r| r.number);
    }
    faults.next()
}

fn job(records: &[Line], residues: &HashMap<Name, Residue>) -> Result<RawJob, Refusal> {
    let mut job = RawJob::default();
    let mut chains: Vec<u8> = Vec::new();
    let mut segments = Vec::new();
    let mut atoms = Vec::new();
    for record in records {
        match record {
            Line::Atom(Ok(a)) => {
                if !chains.contains(&a.name.0) {
                    chains.push(a.name.0);
                }
                let chain = chains.iter().position(|c| *c == a.name.0).unwrap();
                atoms.push((a, residues[&a.name].number, chain));
            }
            Line::Segment(Ok(s)) => segments.push(segment(s, residues)),
            _ => {}
        }
    }
    // 'Counts past the job's limits': C at most 255, R at most 16,384, and S and A are u16.
    let limit = MAX_RESIDUES as usize - wrong(Mutation::ResidueLimitExclusive) as usize;
    let past = chains.len() > MAX_CHAINS as usize
        || residues.len() > limit
        || segments.len() > u16::MAX as usize
        || atoms.len() > u16::MAX as usize;
    if past {
        return Err(Refusal::new(COUNTS, 0));
    }
    job.residues = residues.len() as u16;
    // 'Every chain is visible.'
    job.visible = vec![1; chains.len()];
    job.segments = segments;
    job.atoms = atoms
        .into_iter()
        .map(|(a, residue, chain)| RawAtom {
            serial: a.serial,
            role: a.role,
            residue: residue as u16,
            chain: chain as u16,
            xyz: a.xyz,
        })
        .collect();
    Ok(job)
}

/// 'Segments, in file order, run from the serial of the starting residue's first atom to that of the ending one's last.'
fn segment(s: &Segment, residues: &HashMap<Name, Residue>) -> RawSegment {
    let (from, to) = (
        &residues[&s.start],
        residues.get(&s.end).unwrap_or(&residues[&s.start]),
    );
    RawSegment {
        kind: s.kind,
        start: if wrong(Mutation::SegmentFromLastAtom) {
            from.last
        } else {
            from.first
        },
        end: if wrong(Mutation::SegmentToFirstAtom) {
            to.first
        } else {
            to.last
        },
    }
}

/// The names of a file's residues by their numbers, whether the file is right or not.
pub fn names_of(file: &[u8]) -> Vec<Name> {
    let records: Vec<Line> = lines_read(file).iter().map(|line| record(line)).collect();
    let mut named: Vec<(Name, Residue)> = residues(&records).into_iter().collect();
    named.sort_by_key(|(_, residue)| residue.number);
    named.into_iter().map(|(name, _)| name).collect()
}

/// The job of a file, whatever room there is for it.
pub fn job_of(file: &[u8]) -> Result<RawJob, Refusal> {
    let lines = lines_read(file);
    let records: Vec<Line> = lines.iter().map(|line| record(line)).collect();
    let mut residues = residues(&records);
    if wrong(Mutation::FaultyAtomPresent) {
        for line in lines.iter().filter(|l| is(l, b"ATOM  ") && l.len() >= 27) {
            if let Ok(name) = name(line, 22, 23, 26, 27) {
                let number = residues.len();
                residues.entry(name).or_insert(Residue {
                    number,
                    first: 0,
                    last: 0,
                });
            }
        }
    }
    match first_fault(&records, &residues) {
        Some(refusal) => Err(refusal),
        None => job(&records, &residues),
    }
}

/// 'The reader writes a version 1 job into a lent buffer': the size of the job written, or one refusal, which alters no place.
pub fn read_pdb(file: &[u8], lent: &mut [u8]) -> Result<u32, Refusal> {
    let bytes = job_of(file)?.bytes();
    let room = lent.len() - (wrong(Mutation::RoomExclusive) && !lent.is_empty()) as usize;
    // '16 no job room, with the size needed.'
    if bytes.len() > room {
        if wrong(Mutation::WrittenOnSixteen) {
            let part = lent.len();
            lent.copy_from_slice(&bytes[..part]);
        }
        return Err(Refusal::new(NO_ROOM, bytes.len() as u32));
    }
    if wrong(Mutation::RestCleared) {
        lent.fill(0);
    }
    lent[..bytes.len()].copy_from_slice(&bytes);
    Ok(bytes.len() as u32)
}
