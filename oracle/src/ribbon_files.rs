//! Files and scales for the command `ribbon`: those of the reader's requests, right and damaged, proteins that make real meshes with breaks and
//! residues alone, files at the edge of the small room, and files with nothing to draw. Case `i` of a seed does not depend on the others.

use crate::{
    pdb_files::{self, Residue, segment_line},
    rng::Rng,
};

/// The small room: a file of so many bytes, so many residues, so many vertices.
pub const SMALL_FILE: usize = 1_500_000;
pub const SMALL_RESIDUES: usize = 1024;
pub const SMALL_VERTICES: u32 = 65_536;

/// What the command is handed.
pub struct Case {
    pub file: Vec<u8>,
    /// The word behind --scale, right or wrong; none where it is not asked for.
    pub scale: Option<String>,
}

/// Every 25th file is one of these by turns, so that 300 files have each of them.
const EDGES: [fn(&mut Rng) -> Vec<u8>; 12] = [
    |rng| edge_of_vertices(rng, 1020),
    |rng| edge_of_vertices(rng, 1021),
    |rng| edge_of_residues(rng, SMALL_RESIDUES as u64),
    |rng| edge_of_residues(rng, SMALL_RESIDUES as u64 + 1),
    |rng| edge_of_bytes(rng, SMALL_FILE - 1),
    |rng| edge_of_bytes(rng, SMALL_FILE),
    |rng| edge_of_bytes(rng, SMALL_FILE + 1),
    |rng| edge_of_jobs(rng, 16_384, 0),
    |rng| edge_of_jobs(rng, 16_385, 0),
    |rng| edge_of_jobs(rng, 16_384, 3),
    pdb_files::many_chains,
    crumbs,
];
const EDGE_EACH: u64 = 25;

/// Every 10th file has one of these for its scale by turns, so that 300 files have each of them.
const WRONG_SCALES: [&str; 30] = [
    "", "0", "0.0", "0000.000", "0.0004", "1.2345", "2.0000", "1000.001", "1001", "9999", "00001",
    "10000", ".", ".5", "1.", "1..5", "1.5.2", "-1", "+1", "1e1", "1,5", "x", "1x", " 1", "1 ",
    "inf", "0x2", "\u{663}", "1\n", "--",
];
const WRONG_EACH: u64 = 10;

pub fn case(seed: u64, index: u64) -> Case {
    let mut rng = Rng::new(seed, index);
    if index % EDGE_EACH == EDGE_EACH - 1 {
        let edge = EDGES[(index / EDGE_EACH) as usize % EDGES.len()];
        // No wrong scale, which would hide what the edge shows.
        return Case {
            file: edge(&mut rng),
            scale: rng.percent(50).then(|| right_scale(&mut rng)),
        };
    }
    let file = match rng.below(100) {
        0..=24 => pdb_files::file(&mut rng),
        25..=28 => nothing_to_draw(&mut rng),
        _ => protein(&mut rng),
    };
    let scale = if index % WRONG_EACH == WRONG_EACH / 2 {
        let wrong = WRONG_SCALES[(index / WRONG_EACH) as usize % WRONG_SCALES.len()];
        Some(wrong.to_string())
    } else {
        rng.percent(37).then(|| right_scale(&mut rng))
    };
    Case { file, scale }
}

// ── Scales ────────────────────────────────────────────────────────────────────

fn right_scale(rng: &mut Rng) -> String {
    let common = [
        "1", "2", "4", "0.5", "2.5", "12.125", "0.001", "1000", "1.0", "1.000", "0001", "0.1",
        "0.010", "1000.000", "999.999", "3.14",
    ];
    if rng.percent(40) {
        return rng.pick(&common).to_string();
    }
    let most = rng.pick(&[100, 10_000, 1_000_000]);
    let m = rng.between(1, most);
    let whole = format!("{:0width$}", m / 1000, width = rng.between(1, 4) as usize);
    let behind = format!("{:03}", m % 1000);
    // With or without the zeros at the end, and the point.
    let short = behind.trim_end_matches('0');
    match (rng.percent(50), short) {
        (true, "") => whole,
        (true, short) => format!("{whole}.{short}"),
        _ => format!("{whole}.{behind}"),
    }
}

// ── Proteins ──────────────────────────────────────────────────────────────────

/// What a residue of a protein has, in the file's order.
struct Placed {
    name: Residue,
    /// Where its C-alpha is.
    at: [f64; 3],
    alpha: bool,
    oxygen: bool,
    /// Its lines are HETATM lines, which no reading takes.
    hetero: bool,
}

/// How often things happen along a chain, in percent.
struct Habits {
    gap: u64,
    missing: u64,
    odd: u64,
}

fn habits(rng: &mut Rng) -> Habits {
    Habits {
        gap: rng.pick(&[0, 0, 2, 5, 15, 40, 80]),
        missing: rng.pick(&[0, 0, 3, 10]),
        odd: rng.pick(&[0, 0, 0, 5, 20]),
    }
}

fn letter(rng: &mut Rng) -> u8 {
    match rng.below(20) {
        0 => b' ',
        1 => rng.pick(&[0, 9, 31, 127, 128, 200, 255]),
        2 => rng.pick(b"az09-~!"),
        _ => rng.pick(b"ABCDEFGH"),
    }
}

fn moved(at: [f64; 3], direction: [f64; 3], step: f64) -> [f64; 3] {
    // What eight columns hold, with three digits behind the point.
    [0, 1, 2].map(|a| (at[a] + step * direction[a]).clamp(-999.0, 9999.0))
}

/// The next direction: the last one, turned a little.
fn turned(rng: &mut Rng, last: [f64; 3]) -> [f64; 3] {
    let by = rng.direction();
    let sum = [0, 1, 2].map(|a| last[a] + 0.9 * by[a]);
    let length = sum.iter().map(|x| x * x).sum::<f64>().sqrt();
    sum.map(|x| x / length)
}

/// A chain with C-alphas near 3.8 apart, but for gaps: steps past 5 with the numbers going on, numbers that jump with or without a step, residues
/// that have no C-alpha, and modified ones.
fn chain(rng: &mut Rng, letter: u8, length: u64, habits: &Habits) -> Vec<Placed> {
    let corner = rng.pick(&[0.0, 0.0, 0.0, 0.0, 700.0, 9000.0]);
    let mut at = [0; 3].map(|_| rng.real(corner, corner + 60.0));
    let mut direction = rng.direction();
    let mut number: i64 = rng.pick(&[1, 1, 1, 2, 95, -5, -3, 0, 996]);
    let mut insertion = b' ';
    let mut all = Vec::new();
    for _ in 0..length {
        all.push(Placed {
            name: Residue {
                chain: letter,
                number,
                insertion,
            },
            at,
            alpha: !rng.percent(habits.odd / 2),
            oxygen: !rng.percent(habits.odd),
            hetero: rng.percent(habits.odd / 4),
        });
        let mut step = 3.8 + rng.real(-0.1, 0.1);
        if rng.percent(habits.gap) {
            // About the limit of 5 along an axis, where rounding does not blur it, and far.
            if rng.percent(30) {
                direction = rng.pick(&[[1.0, 0.0, 0.0], [0.0, 1.0, 0.0], [0.0, 0.0, -1.0]]);
            }
            let far = rng.real(5.0, 30.0);
            step = rng.pick(&[4.999, 5.0, 5.001, 6.0, far, far]);
        }
        let mut forward = 1;
        if rng.percent(habits.missing) {
            forward = rng.between(2, 9) as i64;
            if rng.percent(70) {
                step = 3.0 * forward as f64;
            }
        }
        at = moved(at, direction, step);
        direction = turned(rng, direction);
        if rng.percent(habits.odd) {
            insertion = if insertion == b' ' {
                rng.pick(b"AAAB1\t~")
            } else {
                insertion.wrapping_add(1).max(b'!')
            };
        } else {
            number += forward;
            insertion = b' ';
        }
    }
    all
}

/// Several chains one after another, or in blocks by turns, so that each chain's residues stand apart.
fn chains(rng: &mut Rng) -> Vec<Placed> {
    let habits = habits(rng);
    let mut parts = Vec::new();
    for _ in 0..rng.pick(&[1, 1, 1, 2, 2, 3, 5]) {
        let (letter, length) = (letter(rng), rng.pick(&[1, 2, 3, 5, 12, 30, 45, 60]));
        parts.push(chain(rng, letter, length, &habits));
    }
    // Two chains of one letter are one chain; a residue of a name that was there is that residue.
    if !rng.percent(25) {
        return parts.into_iter().flatten().collect();
    }
    let block = rng.pick(&[1, 2, 3, 7]);
    let mut parts: Vec<_> = parts.into_iter().map(Vec::into_iter).collect();
    let mut all = Vec::new();
    while parts.iter().any(|part| part.len() > 0) {
        for part in &mut parts {
            all.extend(part.take(block));
        }
    }
    all
}

/// Helices and strands from a residue to one some places on: apart, meeting, overlapping, over a gap, of one residue.
fn segments(rng: &mut Rng, all: &[Placed]) -> Vec<Vec<u8>> {
    let present: Vec<&Placed> = all.iter().filter(|p| !p.hetero).collect();
    let mut lines = Vec::new();
    let mut at = 0;
    let wanted = rng.pick(&[0, 0, 1, 3, 8]);
    while lines.len() < wanted && at < present.len() {
        let helix = rng.percent(50);
        let first = at + rng.pick(&[0, 0, 1, 2, 4, 9]);
        let last = first + rng.pick(&[0, 1, 2, 4, 7, 12]);
        let (Some(from), Some(to)) = (present.get(first), present.get(last)) else {
            break;
        };
        lines.push(segment_line(rng, helix, &from.name, &to.name));
        // At times the next one may begin at the last residue of this.
        at = if rng.percent(15) { last } else { last + 1 };
    }
    if rng.percent(10) {
        lines.reverse();
    }
    lines
}

/// An atom's line. Its chain letter and insertion code may be any byte.
fn atom_line(record: &str, serial: usize, atom: &str, r: &Residue, at: [f64; 3]) -> Vec<u8> {
    let mut line = format!("{record}{:>5} {atom} GLY ", serial % 100_000).into_bytes();
    line.push(r.chain);
    line.extend(format!("{:>4}", r.number).bytes());
    line.push(r.insertion);
    line.extend(b"   ");
    line.extend(at.iter().flat_map(|x| format!("{x:>8.3}").into_bytes()));
    line.extend(b"  1.00 20.00           C  ");
    line
}

fn atoms(rng: &mut Rng, all: &[Placed]) -> Vec<Vec<u8>> {
    let whole = rng.percent(60);
    let mut lines = Vec::new();
    for p in all {
        let record = if p.hetero { "HETATM" } else { "ATOM  " };
        // Calcium, whose name is nearly that of a C-alpha, at times.
        let other = if rng.percent(50) { " N  " } else { "CA  " };
        let mut near = |name: &'static str| (name, moved(p.at, rng.direction(), 1.6));
        let mut own = Vec::new();
        // A residue with no C-alpha has something else, so that it is there.
        if !p.alpha {
            own.push(near(other));
        } else if whole {
            own.push(near(" N  "));
        }
        if p.alpha {
            own.push((" CA ", p.at));
        }
        if whole {
            own.push(near(" C  "));
        }
        if p.oxygen {
            own.push(near(" O  "));
        }
        for (name, at) in own {
            lines.push(atom_line(record, lines.len() + 1, name, &p.name, at));
        }
    }
    lines
}

/// The lines as a file, with what stands round them at times.
fn joined(rng: &mut Rng, mut lines: Vec<Vec<u8>>) -> Vec<u8> {
    if rng.percent(50) {
        lines.insert(0, b"HEADER    A PROTEIN".to_vec());
    }
    if rng.percent(70) {
        lines.push(b"TER".to_vec());
    }
    if rng.percent(10) {
        lines.push(b"ENDMDL".to_vec());
        lines.push(b"ATOM  not read".to_vec());
    }
    if rng.percent(70) {
        lines.push(b"END".to_vec());
    }
    let end: &[u8] = if rng.percent(10) { b"\r\n" } else { b"\n" };
    lines
        .iter()
        .flat_map(|l| [l.as_slice(), end].concat())
        .collect()
}

fn protein(rng: &mut Rng) -> Vec<u8> {
    let all = chains(rng);
    let mut lines = segments(rng, &all);
    lines.extend(atoms(rng, &all));
    joined(rng, lines)
}

// ── Edges of the small room, and nothing to draw ──────────────────────────────

/// A chain of C-alphas with no gap.
fn plain_chain(rng: &mut Rng, length: u64) -> Vec<Placed> {
    let none = Habits {
        gap: 0,
        missing: 0,
        odd: 0,
    };
    let mut all = chain(rng, b'A', length, &none);
    for p in &mut all {
        p.oxygen = false;
    }
    all
}

/// 16 helices of a chain, the first at its start and none at its end, make 32 tubes, and the coils share 31 residues with them: of 1,020 residues
/// 64 * 1051 - 54 * 32 = 65,536 vertices, which the small room has; of one more residue 64 more.
fn edge_of_vertices(rng: &mut Rng, length: u64) -> Vec<u8> {
    let all = plain_chain(rng, length);
    let mut lines = Vec::new();
    for i in 0..16 {
        let (from, to) = (60 * i, 60 * i + rng.between(2, 50) as usize);
        lines.push(segment_line(rng, true, &all[from].name, &all[to].name));
    }
    lines.extend(atoms(rng, &all));
    joined(rng, lines)
}

fn edge_of_residues(rng: &mut Rng, length: u64) -> Vec<u8> {
    let all = plain_chain(rng, length);
    let lines = atoms(rng, &all);
    joined(rng, lines)
}

/// A protein whose file remarks make so long.
fn edge_of_bytes(rng: &mut Rng, size: usize) -> Vec<u8> {
    let tail = protein(rng);
    let spare = size - tail.len();
    let mut file = b"REMARK  99 x\n".repeat(spare / 13);
    file.resize(spare.saturating_sub(1), b'x');
    file.push(b'\n');
    file.extend(tail);
    file
}

/// The most residues that a job has, or one more; helices over all of them pass the limit on vertices.
fn edge_of_jobs(rng: &mut Rng, length: u64, helices: usize) -> Vec<u8> {
    let mut all = plain_chain(rng, length);
    for (i, p) in all.iter_mut().enumerate() {
        p.name.chain = b'A' + (i / 9000) as u8;
        p.name.number = (i % 9000) as i64;
    }
    let (first, last) = (&all[0].name, &all[all.len() - 1].name);
    let mut lines: Vec<Vec<u8>> = Vec::new();
    for _ in 0..helices {
        lines.push(segment_line(rng, true, first, last));
    }
    lines.extend(atoms(rng, &all));
    joined(rng, lines)
}

/// More than twelve breaks and more than twelve residues alone: pairs, and then single ones, each far from the next.
fn crumbs(rng: &mut Rng) -> Vec<u8> {
    let mut all = plain_chain(rng, 60);
    for (i, p) in all.iter_mut().enumerate() {
        let x = if i < 40 { i / 2 * 20 } else { i * 20 };
        p.at = [x as f64 + 3.8 * (i % 2) as f64, 0.0, 0.0];
    }
    let lines = atoms(rng, &all);
    joined(rng, lines)
}

fn nothing_to_draw(rng: &mut Rng) -> Vec<u8> {
    let files: [&[u8]; 10] = [
        b"",
        b"\n",
        b"END\n",
        b"HEADER    NOTHING\nREMARK   2\nEND\n",
        b"HETATM    1  CA  MSE A   1       1.000   1.000   1.000\nEND\n",
        b"ATOM      1  CA  GLY A   1       1.000   1.000   1.000\nEND\n",
        b"ATOM      1  O   GLY A   1       1.000   1.000   1.000\nATOM      2  O   GLY A   2       4.000   1.000   1.000\nEND\n",
        b"data_1CBS\nloop_\n_atom_site.id\n1\n",
        b"\x1f\x8b\x08\x00\x00\x00\x00\x00",
        b"MODEL        1\nENDMDL\nATOM      1  CA  GLY A   1       1.000   1.000   1.000\n",
    ];
    rng.pick(&files).to_vec()
}
