//! PDB files for the reader's call: right ones, and ones damaged in each way that 02 §1 has a word for.

use crate::{
    pdb::job_of,
    protocol::{MOST_BYTES, READ, Request},
    rng::Rng,
};

/// The most that is lent for a job here. A program takes `MOST_BYTES`, but these requests stay those of the recorded runs.
const MOST_LENT: u64 = 102_000;

/// Where the numbers of each record stand, by column.
const ATOM_NUMBERS: [(usize, usize); 5] = [(7, 11), (23, 26), (31, 38), (39, 46), (47, 54)];
const HELIX_NUMBERS: [(usize, usize); 2] = [(22, 25), (34, 37)];
const SHEET_NUMBERS: [(usize, usize); 2] = [(23, 26), (34, 37)];

/// Names of atoms, those of C-alpha and oxygen often, and those that come near them.
const NAMES: [&str; 20] = [
    " CA ", " CA ", " CA ", " O  ", " O  ", " N  ", " C  ", " CB ", "CA  ", "CA  ", " OXT", "O   ",
    "  O ", "  CA", " CA'", " ca ", " O1 ", "HO  ", " CA\t", "\tCA ",
];

#[derive(Clone, PartialEq)]
pub struct Residue {
    pub chain: u8,
    pub number: i64,
    pub insertion: u8,
}

/// A file that is being written, line by line.
#[derive(Default)]
struct Draft {
    segments: Vec<Vec<u8>>,
    atoms: Vec<Vec<u8>>,
}

// ── Lines ─────────────────────────────────────────────────────────────────────

/// Puts text into a line at a column, counted from 1.
fn put(line: &mut Vec<u8>, column: usize, text: &[u8]) {
    let end = column - 1 + text.len();
    if line.len() < end {
        line.resize(end, b' ');
    }
    line[column - 1..end].copy_from_slice(text);
}

/// A number in its columns: mostly to the right, at times to the left, in the middle, or led by zeros.
fn put_number(rng: &mut Rng, line: &mut Vec<u8>, (first, last): (usize, usize), text: &str) {
    let width = last + 1 - first;
    let mut text = text.to_string();
    text.truncate(width);
    let spare = width - text.len();
    let (before, zeros) = match rng.below(20) {
        0 => (0, 0),
        1 => (rng.below(spare as u64 + 1) as usize, 0),
        2 if !text.starts_with('-') => (0, spare),
        _ => (spare, 0),
    };
    let number = format!("{}{}{text}", " ".repeat(before), "0".repeat(zeros));
    put(line, first, format!("{number:<width$}").as_bytes());
}

fn put_residue(
    rng: &mut Rng,
    line: &mut Vec<u8>,
    chain: usize,
    number: (usize, usize),
    r: &Residue,
) {
    put(line, chain, &[r.chain]);
    put_number(rng, line, number, &r.number.to_string());
    put(line, number.1 + 1, &[r.insertion]);
}

/// Thousandths in the eight columns of a coordinate, those at the limits and both zeros often.
fn coordinate(rng: &mut Rng) -> String {
    let thousandths = match rng.below(12) {
        0 => {
            return rng
                .pick(&["-0.000", "0.000", "-0.001", "-00.000", "0000.000"])
                .to_string();
        }
        1 => rng.pick(&[9_999_999, -999_999, 1, -1, 999, 1000, -1000]),
        2 => rng.between(0, 9_999_999) as i64,
        3 => -(rng.between(0, 999_999) as i64),
        _ => rng.between(0, 100_000) as i64 - 50_000,
    };
    let sign = if thousandths < 0 { "-" } else { "" };
    let n = thousandths.abs();
    format!("{sign}{}.{:03}", n / 1000, n % 1000)
}

fn atom_line(rng: &mut Rng, serial: u64, r: &Residue) -> Vec<u8> {
    let mut line = b"ATOM  ".to_vec();
    put(&mut line, 80, b" ");
    put_number(rng, &mut line, ATOM_NUMBERS[0], &serial.to_string());
    put(&mut line, 13, rng.pick(&NAMES).as_bytes());
    put(
        &mut line,
        17,
        rng.pick(&[b"    ", b"AALA", b"BGLY", b" SER"]),
    );
    put_residue(rng, &mut line, 22, (23, 26), r);
    for at in &ATOM_NUMBERS[2..] {
        let x = coordinate(rng);
        put_number(rng, &mut line, *at, &x);
    }
    put(&mut line, 55, b"  1.00 20.00           C  ");
    line.truncate(rng.pick(&[54, 54, 55, 66, 78, 80, 80]));
    line
}

pub fn segment_line(rng: &mut Rng, helix: bool, from: &Residue, to: &Residue) -> Vec<u8> {
    let mut line = if helix {
        b"HELIX ".to_vec()
    } else {
        b"SHEET ".to_vec()
    };
    put(&mut line, 80, b" ");
    put(&mut line, 8, b"  1   1");
    if helix {
        put(&mut line, 16, b"ALA X  123  GLY");
        put_residue(rng, &mut line, 20, HELIX_NUMBERS[0], from);
        put_residue(rng, &mut line, 32, HELIX_NUMBERS[1], to);
    } else {
        put(&mut line, 14, b"A 2 ALA X 12  GLY");
        put_residue(rng, &mut line, 22, SHEET_NUMBERS[0], from);
        put_residue(rng, &mut line, 33, SHEET_NUMBERS[1], to);
    }
    line.truncate(rng.pick(&[38, 38, 39, 40, 70, 76, 80]));
    line
}

/// A line that no reading needs, some of them nearly records.
fn other_line(rng: &mut Rng) -> Vec<u8> {
    let lines: [&[u8]; 16] = [
        b"HEADER    TEST",
        b"REMARK   2",
        b"TER",
        b"END",
        b"",
        b"ATOM",
        b"ATOM 1",
        b"HELIX",
        b"SHEET",
        b"MODEL",
        b"ENDMD",
        b" ATOM  1",
        b"atom      1",
        b"ATOMS     1",
        b"HETATM    1 CA    CA A   1       1.000   1.000   1.000",
        b"ANISOU    1  CA  ALA A   1",
    ];
    rng.pick(&lines).to_vec()
}

// ── Files ─────────────────────────────────────────────────────────────────────

fn chain_letter(rng: &mut Rng) -> u8 {
    match rng.below(10) {
        0 => rng.pick(b" aZ09-"),
        1 => rng.pick(&[0, 9, 13, 32, 127, 128, 255]),
        _ => rng.pick(b"ABCD"),
    }
}

/// Residues in the order of their first atoms, with insertion codes, jumps and numbers below 0.
fn residues(rng: &mut Rng) -> Vec<Residue> {
    let mut all: Vec<Residue> = Vec::new();
    let mut next = Residue {
        chain: chain_letter(rng),
        number: rng.pick(&[1, 1, 1, -3, 0, 95, 996, 9990]),
        insertion: b' ',
    };
    for _ in 0..rng.pick(&[0, 1, 2, 3, 5, 8, 12, 20]) {
        all.push(next.clone());
        match rng.below(20) {
            0 => next.number = rng.pick(&[-999, -1, 0, 1, 10, 9999]),
            1 => next.insertion = rng.pick(b" AB1a"),
            2 | 3 => {
                next.insertion = if next.insertion == b' ' {
                    b'A'
                } else {
                    next.insertion + 1
                }
            }
            4 | 5 => {
                next = Residue {
                    chain: chain_letter(rng),
                    number: next.number + 1,
                    insertion: b' ',
                }
            }
            // The same number in another chain, which is another residue.
            6 => next.chain = chain_letter(rng),
            7 => next.number += 7,
            8 => next = rng.pick(&all.iter().collect::<Vec<_>>()).clone(),
            _ => {
                next = Residue {
                    number: (next.number + 1).min(9999),
                    insertion: b' ',
                    ..next
                }
            }
        }
    }
    all
}

/// A residue that is there, or, at times, its neighbour in name, which may not be.
fn named(rng: &mut Rng, all: &[Residue], odd: u64) -> Residue {
    let none = Residue {
        chain: b'A',
        number: 1,
        insertion: b' ',
    };
    let mut r = if all.is_empty() {
        none
    } else {
        all[rng.below(all.len() as u64) as usize].clone()
    };
    if rng.percent(odd) {
        match rng.below(3) {
            0 => r.chain = chain_letter(rng),
            1 => r.number = (r.number + rng.pick(&[-1, 1, 10])).clamp(-999, 9999),
            _ => r.insertion = rng.pick(b" AB"),
        }
    }
    r
}

fn draft(rng: &mut Rng) -> Draft {
    let all = residues(rng);
    let mut draft = Draft::default();
    let mut serial = rng.pick(&[0, 1, 1, 1, 99_980]);
    for r in &all {
        for _ in 0..rng.pick(&[1, 1, 2, 4, 5]) {
            draft.atoms.push(atom_line(rng, serial, r));
            serial = match rng.below(30) {
                0 => serial,
                1 => rng.below(100_000),
                _ => (serial + 1) % 100_000,
            };
        }
    }
    let odd = rng.pick(&[0, 0, 0, 5, 30]);
    for _ in 0..rng.pick(&[0, 0, 1, 2, 3, 6]) {
        let (from, to) = (named(rng, &all, odd), named(rng, &all, odd));
        let helix = rng.percent(50);
        draft.segments.push(segment_line(rng, helix, &from, &to));
    }
    draft
}

/// The lines of a draft in the order of a file: segments first, models around the atoms at times, more after the first one's end.
fn lines(rng: &mut Rng) -> Vec<Vec<u8>> {
    let mut it = draft(rng);
    if rng.percent(10) && it.atoms.len() > 1 {
        let (a, b) = (
            rng.below(it.atoms.len() as u64) as usize,
            rng.below(it.atoms.len() as u64) as usize,
        );
        it.atoms.swap(a, b);
    }
    let models = rng.percent(20);
    let mut lines = Vec::new();
    let segments_last = rng.percent(10);
    if !segments_last {
        lines.append(&mut it.segments);
    }
    if models {
        lines.push(b"MODEL        1".to_vec());
    }
    lines.append(&mut it.atoms);
    if models {
        if rng.percent(60) {
            lines.push(b"ENDMDL".to_vec());
        }
        lines.push(b"MODEL        2".to_vec());
        let mut more = draft(rng);
        lines.append(&mut more.atoms);
        lines.append(&mut more.segments);
    }
    lines.append(&mut it.segments);
    for _ in 0..rng.pick(&[0, 0, 1, 2, 4]) {
        let at = rng.below(lines.len() as u64 + 1) as usize;
        let other = other_line(rng);
        lines.insert(at, other);
    }
    lines
}

// ── Damage ────────────────────────────────────────────────────────────────────

/// The columns of a record's numbers, and its last column.
fn numbers(line: &[u8]) -> Option<(&'static [(usize, usize)], usize)> {
    match line.get(..6)? {
        b"ATOM  " => Some((&ATOM_NUMBERS, 54)),
        b"HELIX " => Some((&HELIX_NUMBERS, 38)),
        b"SHEET " => Some((&SHEET_NUMBERS, 38)),
        _ => None,
    }
}

/// Texts that are no right numbers somewhere, and some that are.
const ODD: [&str; 32] = [
    "-7", "-12", "", "-", "+1", "1-", "--1", "1 2", "- 1", "1.5", ".500", "-.500", "0.5", "1.50",
    "1.5000", "1..000", "1.000.", "1e3", "0x1", "A", "\t1", "1\t", "1.00a", "1,000", "007", "-0",
    "-5", "0.000", "-0.000", "12", "1.-00", "99999",
];

fn damage_number(rng: &mut Rng, line: &mut [u8]) {
    let Some((fields, _)) = numbers(line) else {
        return;
    };
    let (first, last) = rng.pick(fields);
    if line.len() < last {
        return;
    }
    let mut text = rng.pick(&ODD).to_string();
    let width = last + 1 - first;
    text.truncate(width);
    let text = match rng.below(3) {
        0 => format!("{text:<width$}"),
        1 => format!("{text:^width$}"),
        _ => format!("{text:>width$}"),
    };
    line[first - 1..last].copy_from_slice(text.as_bytes());
}

fn damage_line(rng: &mut Rng, line: &mut Vec<u8>) {
    let length = line.len() as u64;
    match rng.below(9) {
        0 | 1 => {
            let last = numbers(line).map_or(6, |(_, last)| last as u64);
            let any = rng.below(length + 1);
            let cut = rng.pick(&[last - 1, last - 1, last, last + 1, 5, 6, any]);
            line.truncate(cut as usize);
        }
        2..=4 => damage_number(rng, line),
        5 if length > 0 => line[rng.below(length) as usize] = rng.word() as u8,
        6 if length > 0 => line[rng.below(length) as usize] = rng.pick(b" -.0A\t\r+"),
        7 if length > 0 => drop(line.remove(rng.below(length) as usize)),
        _ => line.insert(rng.below(length + 1) as usize, rng.pick(b" 1A\n")),
    }
}

fn damage(rng: &mut Rng, lines: &mut Vec<Vec<u8>>) {
    if lines.is_empty() {
        return;
    }
    let any = |rng: &mut Rng, lines: &[Vec<u8>]| rng.below(lines.len() as u64) as usize;
    let at = any(rng, lines);
    match rng.below(10) {
        0..=6 => damage_line(rng, &mut lines[at]),
        7 => drop(lines.remove(at)),
        8 => {
            let to = any(rng, lines);
            let line = lines[at].clone();
            lines.insert(to, line);
        }
        _ => {
            let stops: [&[u8]; 6] = [
                b"ENDMDL", b"MODEL ", b"MODEL 2", b"MODEL", b"ENDMD", b"ENDMDLS",
            ];
            let line = rng.pick(&stops).to_vec();
            lines.insert(at, line);
        }
    }
}

/// Lines with their ends: LF, CR and LF, or of several kinds; the last one's end may be missing, or half there.
fn joined(rng: &mut Rng, lines: &[Vec<u8>]) -> Vec<u8> {
    let style = rng.below(10);
    let mut file = Vec::new();
    for (i, line) in lines.iter().enumerate() {
        file.extend(line);
        let end: &[u8] = match style {
            _ if i + 1 == lines.len() && rng.percent(25) => {
                rng.pick(&[b"".as_slice(), b"", b"\r", b"\n\n", b"\r\r\n"])
            }
            0 | 1 => b"\r\n",
            2 => rng.pick(&[b"\n".as_slice(), b"\r\n", b"\r\r\n", b"\n\r\n"]),
            _ => b"\n",
        };
        file.extend(end);
    }
    file
}

/// A record one column short or just long enough, and then a CR: the line's end, or its last column.
fn tight_end(rng: &mut Rng, lines: &mut [Vec<u8>]) {
    let records = (0..lines.len()).filter(|&i| numbers(&lines[i]).is_some());
    let records: Vec<usize> = records.collect();
    let Some(&final_one) = records.last() else {
        return;
    };
    let at = if rng.percent(70) {
        final_one
    } else {
        rng.pick(&records)
    };
    let last = numbers(&lines[at]).map_or(6, |(_, last)| last);
    lines[at].truncate(last - rng.below(2) as usize);
    lines[at].push(b'\r');
}

/// Many residues of one atom each, so that their number is at its limit or past it, with segments before and after them that name early residues, late
/// ones, and at times one that is absent; at times an atom's line is damaged.
fn many_residues(rng: &mut Rng) -> Vec<u8> {
    let count: u64 = rng.pick(&[16_384, 16_385, 16_385, 16_390]);
    let residue = |i: u64| Residue {
        chain: b'A' + (i / 9000) as u8,
        number: (i % 9000) as i64,
        insertion: b' ',
    };
    let mut lines = Vec::with_capacity(count as usize + 12);
    let segments = |rng: &mut Rng, lines: &mut Vec<Vec<u8>>| {
        for _ in 0..rng.below(6) {
            let mut end = || match rng.below(12) {
                0 => residue(count + rng.below(9)),
                1..=6 => residue(rng.between(16_380, count - 1)),
                _ => residue(rng.below(count)),
            };
            let (from, to) = (end(), end());
            let helix = rng.percent(50);
            lines.push(segment_line(rng, helix, &from, &to));
        }
    };
    segments(rng, &mut lines);
    let first = lines.len();
    for i in 0..count {
        let r = residue(i);
        lines.push(
            format!(
                "ATOM  {i:>5}  CA  GLY {}{:>4}       1.000   2.000   3.000",
                r.chain as char, r.number
            )
            .into_bytes(),
        );
    }
    if rng.percent(25) {
        let at = first + rng.below(count) as usize;
        damage_line(rng, &mut lines[at]);
    }
    segments(rng, &mut lines);
    lines.join(&b'\n')
}

/// Each letter that a column can hold: every byte but LF.
pub fn many_chains(rng: &mut Rng) -> Vec<u8> {
    let mut file = Vec::new();
    for chain in (0..=255).filter(|&b| b != b'\n') {
        let r = Residue {
            chain,
            number: 1,
            insertion: b' ',
        };
        file.extend(atom_line(rng, chain as u64, &r));
        file.push(b'\n');
    }
    file
}

/// A PDB file, right or damaged.
pub fn file(rng: &mut Rng) -> Vec<u8> {
    match rng.below(2000) {
        0..=3 => return many_residues(rng),
        4 => return many_chains(rng),
        5..=24 => {
            return rng
                .pick(&[
                    b"".as_slice(),
                    b"\n",
                    b"\r\n",
                    b"\r",
                    b"ATOM  ",
                    b"HELIX \n",
                    b"ENDMDL",
                    b"\nATOM  ",
                ])
                .to_vec();
        }
        25..=40 => {
            return (0..rng.below(400))
                .map(|_| rng.pick(b"ATOM  1\n\r\x00HELIX SHEET .-CA"))
                .collect();
        }
        _ => {}
    }
    let mut lines = lines(rng);
    for _ in 0..rng.pick(&[0, 0, 0, 1, 1, 2, 4]) {
        damage(rng, &mut lines);
    }
    if rng.percent(6) {
        tight_end(rng, &mut lines);
    }
    joined(rng, &lines)
}

/// A request to read a file, with lent bytes at, below and above the job's size.
pub fn request(rng: &mut Rng) -> Request {
    let mut bytes = file(rng);
    bytes.truncate(MOST_BYTES);
    let room = match job_of(&bytes) {
        Ok(job) => {
            let size = job.bytes().len() as u64;
            match rng.below(10) {
                0..=3 => size,
                4 | 5 => size + rng.between(1, 20),
                6 | 7 => size - 1,
                8 => size.saturating_sub(rng.pick(&[9, 33, 34])),
                _ => rng.below(size + 1),
            }
        }
        Err(_) => rng.pick(&[0, 1, 12, 13, 80, 200]),
    };
    let mut lengths = [0; 8];
    lengths[0] = room.min(MOST_LENT) as u32;
    // More than a program has room for, which it passes over.
    if rng.below(500) == 0 {
        lengths[0] = rng.pick(&[MOST_BYTES as u32 + 1, u32::MAX]);
    }
    Request {
        call: READ,
        lengths,
        k: 0,
        bytes,
    }
}
