//! Where a printed chain comes apart, and which residues are left alone: read plainly from the tube records, the residues' names and the job. The
//! sentences that `ribbon` is held to stand at the places that they decide.

use std::collections::BTreeSet;

use crate::{
    job::RawJob,
    pdb::Name,
    wrong::{Mutation, wrong},
};

/// 'at most 12 lines'.
const SHOWN: usize = 12;

/// A tube: its first residue, and how many it has. They stand one after another.
pub type Run = (usize, usize);

/// The tubes' runs from their records of five words: kind, first residue, residues, first vertex, first triangle.
pub fn runs(records: &[u32]) -> Vec<Run> {
    let records = records.chunks_exact(5);
    records.map(|r| (r[1] as usize, r[2] as usize)).collect()
}

fn has(&(first, n): &Run, residue: usize) -> bool {
    (first..first + n).contains(&residue)
}

/// 'the residues that some tube has, by ascending residue number'.
fn drawn(tubes: &[Run]) -> BTreeSet<usize> {
    tubes
        .iter()
        .flat_map(|&(first, n)| first..first + n)
        .collect()
}

/// 'separately for each chain letter: two that are neighbours in this list of their chain (N before M) are a break exactly when no tube has both',
/// 'ordered by M's residue number'.
pub fn breaks(names: &[Name], tubes: &[Run]) -> Vec<(usize, usize)> {
    let drawn = drawn(tubes);
    let letters: BTreeSet<u8> = drawn.iter().map(|&r| names[r].0).collect();
    let mut found = Vec::new();
    for letter in letters {
        let own = |r: &&usize| names[**r].0 == letter || wrong(Mutation::RibbonBreakOfAll);
        let list: Vec<usize> = drawn.iter().filter(own).copied().collect();
        for pair in list.windows(2) {
            let (n, m) = (pair[0], pair[1]);
            let joined = if wrong(Mutation::RibbonBreakByNumber) {
                names[m].1 <= names[n].1 + 1
            } else {
                tubes.iter().any(|t| has(t, n) && has(t, m))
            };
            if !joined {
                found.push((n, m));
            }
        }
    }
    if !wrong(Mutation::RibbonBreakByChain) {
        found.sort_by_key(|&(_, m)| m);
    }
    if wrong(Mutation::RibbonBreakMissed) {
        found.pop();
    }
    found
}

/// 'residues that have a C-alpha (an atom of role 1) and that no tube has, by ascending residue number'.
pub fn alone(job: &RawJob, tubes: &[Run]) -> Vec<usize> {
    let any = wrong(Mutation::RibbonAloneWithoutAlpha);
    let atoms = job.atoms.iter().filter(|a| a.role == 1 || any);
    let alphas: BTreeSet<usize> = atoms.map(|a| a.residue as usize).collect();
    alphas.difference(&drawn(tubes)).copied().collect()
}

// ── In words ──────────────────────────────────────────────────────────────────

/// 'a byte that is not printing ASCII is `?`'.
fn printing(byte: u8) -> char {
    if byte.is_ascii_graphic() {
        byte as char
    } else {
        '?'
    }
}

/// 'Chain letter: blank is `(blank)`'.
fn chain(name: Name) -> String {
    match name.0 {
        b' ' => "(blank)".to_string(),
        letter => printing(letter).to_string(),
    }
}

/// 'its number, and its insertion code behind it where that is not blank'.
fn residue((_, number, insertion): Name) -> String {
    if insertion == b' ' || wrong(Mutation::RibbonInsertionDropped) {
        return number.to_string();
    }
    format!("{number}{}", printing(insertion))
}

/// 'at most 12 lines, then `break: and J more`'.
fn shortened(word: &str, mut lines: Vec<String>) -> Vec<String> {
    let shown = SHOWN + wrong(Mutation::RibbonThirteenShown) as usize;
    if lines.len() > shown {
        let more = lines.len() - shown;
        lines.truncate(shown);
        lines.push(format!("{word}: and {more} more"));
    }
    lines
}

pub fn break_lines(names: &[Name], breaks: &[(usize, usize)]) -> Vec<String> {
    let line = |&(n, m): &(usize, usize)| {
        format!(
            "break: chain {} between residues {} and {}",
            chain(names[n]),
            residue(names[n]),
            residue(names[m])
        )
    };
    shortened("break", breaks.iter().map(line).collect())
}

pub fn alone_lines(names: &[Name], alone: &[usize]) -> Vec<String> {
    let line = |&r: &usize| {
        let name = names[r];
        format!("alone: chain {} residue {}", chain(name), residue(name))
    };
    shortened("alone", alone.iter().map(line).collect())
}

#[cfg(test)]
mod tests {
    use super::*;
    use crate::{
        calls::list,
        job::decode,
        pdb::{job_of, names_of},
    };

    /// An ATOM line of a C-alpha on the x axis.
    fn alpha(serial: usize, name: &str, x: f64) -> String {
        format!("ATOM  {serial:>5}  CA  GLY {name}   {x:>8.3}   0.000   0.000\n")
    }

    fn helix(from: &str, to: &str) -> String {
        format!(
            "HELIX    1   1 GLY {} {} GLY {} {}\n",
            &from[..1],
            &from[1..],
            &to[..1],
            &to[1..]
        )
    }

    /// The file of these lines, its C-alphas numbered: what is told of it. A name has a chain letter, four columns and an insertion code.
    fn told(segments: &[String], residues: &[(&str, f64)]) -> Vec<String> {
        let atoms = residues.iter().enumerate();
        let atoms: String = atoms.map(|(i, (name, x))| alpha(i + 1, name, *x)).collect();
        told_of((segments.concat() + &atoms).as_bytes())
    }

    fn told_of(file: &[u8]) -> Vec<String> {
        let (job, names) = (job_of(file).expect("a right file"), names_of(file));
        assert_eq!(names.len(), job.residues as usize);
        let tubes = list(&decode(&job.bytes()).expect("a right job"));
        let words: Vec<u32> = tubes.list.iter().flat_map(|t| t.words).collect();
        let tubes = runs(&words);
        let mut lines = break_lines(&names, &breaks(&names, &tubes));
        lines.extend(alone_lines(&names, &alone(&job, &tubes)));
        lines
    }

    /// Residues at these places of x, numbered from 1 in chain A.
    fn chain_a(places: &[f64]) -> Vec<String> {
        let names: Vec<String> = (1..=places.len()).map(|i| format!("A{i:>4} ")).collect();
        let residues = names.iter().zip(places);
        told(
            &[],
            &residues.map(|(n, x)| (n.as_str(), *x)).collect::<Vec<_>>(),
        )
    }

    #[test]
    fn a_whole_chain_has_none() {
        assert!(chain_a(&[0.0, 3.8, 7.6, 11.4]).is_empty());
        assert!(told_of(b"").is_empty());
    }

    #[test]
    fn a_missing_residue() {
        let residues = [
            ("A  33 ", 0.0),
            ("A  34 ", 3.8),
            ("A  41 ", 20.0),
            ("A  42 ", 23.8),
        ];
        assert_eq!(
            told(&[], &residues),
            ["break: chain A between residues 34 and 41"]
        );
        // Where the ends come near each other the tube goes on: the records decide, and no number does.
        let near = [
            ("A  33 ", 0.0),
            ("A  34 ", 3.8),
            ("A  41 ", 7.6),
            ("A  42 ", 11.4),
        ];
        assert!(told(&[], &near).is_empty());
    }

    #[test]
    fn a_step_over_five() {
        assert!(chain_a(&[0.0, 3.8, 8.8, 12.6]).is_empty());
        let one = ["break: chain A between residues 2 and 3"];
        assert_eq!(chain_a(&[0.0, 3.8, 8.801, 12.6]), one);
    }

    /// No coil joins them, so that the print has two parts there, near as they are.
    #[test]
    fn two_helices_that_meet() {
        let names = ["A   1 ", "A   2 ", "A   3 ", "A   4 "];
        let residues: Vec<_> = names
            .iter()
            .zip([0.0, 3.8, 7.6, 11.4])
            .map(|(n, x)| (*n, x))
            .collect();
        let meet = [helix(names[0], names[1]), helix(names[2], names[3])];
        assert_eq!(
            told(&meet, &residues),
            ["break: chain A between residues 2 and 3"]
        );
        let share = [helix(names[0], names[2]), helix(names[2], names[3])];
        assert!(told(&share, &residues).is_empty());
    }

    /// Residues 0 and 1 of A, 2 and 3 of B, 4 and 5 of A: each chain has a list of its own, and the lines go by the second residue.
    #[test]
    fn chains_interleaved() {
        let residues = [
            ("B   1 ", 0.0),
            ("B   2 ", 3.8),
            ("A   1 ", 0.0),
            ("A   2 ", 3.8),
            ("B   3 ", 7.6),
            ("B   4 ", 11.4),
            ("A   3 ", 7.6),
            ("A   4 ", 11.4),
        ];
        let both = [
            "break: chain B between residues 2 and 3",
            "break: chain A between residues 2 and 3",
        ];
        assert_eq!(told(&[], &residues), both);
        // One by one no two are neighbours by their numbers, and none has a tube.
        let turns = [
            ("A   1 ", 0.0),
            ("B   1 ", 9.0),
            ("A   2 ", 3.8),
            ("B   2 ", 12.8),
        ];
        let all = [
            "alone: chain A residue 1",
            "alone: chain B residue 1",
            "alone: chain A residue 2",
            "alone: chain B residue 2",
        ];
        assert_eq!(told(&[], &turns), all);
    }

    #[test]
    fn names_and_letters() {
        let residues = [
            ("   -3 ", 0.0),
            ("   -3A", 3.8),
            ("   34A", 20.0),
            ("   34B", 23.8),
        ];
        assert_eq!(
            told(&[], &residues),
            ["break: chain (blank) between residues -3A and 34A"]
        );
        let residues = [("\u{1}   1\t", 0.0), ("\u{7f} 007 ", 3.8), ("~  -0~", 7.6)];
        let odd = [
            "alone: chain ? residue 1?",
            "alone: chain ? residue 7",
            "alone: chain ~ residue 0~",
        ];
        assert_eq!(told(&[], &residues), odd);
        // Two letters that are shown alike are two chains.
        let residues = [
            ("\u{1}   1 ", 0.0),
            ("\u{1}   2 ", 3.8),
            ("\u{2}   3 ", 20.0),
            ("\u{2}   4 ", 23.8),
        ];
        assert!(told(&[], &residues).is_empty());
    }

    /// One that no tube has is passed over in the list of its chain.
    #[test]
    fn a_lone_residue() {
        let lone = [
            "break: chain A between residues 2 and 4",
            "alone: chain A residue 3",
        ];
        assert_eq!(chain_a(&[0.0, 3.8, 20.0, 40.0, 43.8]), lone);
        assert_eq!(chain_a(&[0.0]), ["alone: chain A residue 1"]);
        // No C-alpha: not alone, and no break by itself.
        let oxygen = "ATOM      3  O   GLY A   3      20.000   0.000   0.000\n";
        let file = alpha(1, "A   1 ", 0.0) + &alpha(2, "A   2 ", 3.8) + oxygen;
        assert!(told_of(file.as_bytes()).is_empty());
        let more = file + &alpha(4, "A   4 ", 7.6) + &alpha(5, "A   5 ", 11.4);
        assert_eq!(
            told_of(more.as_bytes()),
            ["break: chain A between residues 2 and 4"]
        );
    }

    #[test]
    fn more_than_twelve() {
        // Pairs far apart: one break fewer than there are pairs.
        let pairs = |n: usize| -> Vec<f64> {
            (0..2 * n)
                .map(|i| 20.0 * (i / 2) as f64 + 3.8 * (i % 2) as f64)
                .collect()
        };
        let twelve = chain_a(&pairs(13));
        assert_eq!(twelve.len(), 12);
        assert_eq!(twelve[11], "break: chain A between residues 24 and 25");
        let thirteen = chain_a(&pairs(14));
        assert_eq!(thirteen[..12], twelve);
        assert_eq!(thirteen[12..], ["break: and 1 more"]);
        let alone = chain_a(&(0..30).map(|i| 10.0 * i as f64).collect::<Vec<_>>());
        assert_eq!(
            alone[11..],
            ["alone: chain A residue 12", "alone: and 18 more"]
        );
        assert_eq!(alone.len(), 13);
    }

    /// What two tubes have is joined where a third has both.
    #[test]
    fn by_records_alone() {
        let names: Vec<Name> = (0..8).map(|i| (b'A', i, b' ')).collect();
        assert_eq!(runs(&[1, 2, 3, 0, 0, 0, 4, 2, 138, 272]), [(2, 3), (4, 2)]);
        assert_eq!(breaks(&names, &[(0, 3), (3, 2)]), [(2, 3)]);
        assert!(breaks(&names, &[(0, 3), (3, 2), (2, 2)]).is_empty());
        assert_eq!(breaks(&names, &[(6, 2), (0, 2)]), [(1, 6)]);
        assert!(breaks(&names, &[]).is_empty());
    }
}
