//! What 01's program `ribbon-plan` prints for a job on its standard input.

use std::fmt::Write;

use crate::calls::plan;

/// 01: 'reads a job on standard input (at most 64 KiB)'; 'its scratch serves R up to 512'.
pub const MOST_BYTES: usize = 65_536;
const RESIDUES: usize = 512;

pub fn plan_text(bytes: &[u8]) -> String {
    if bytes.len() > MOST_BYTES {
        return "too long\n".to_string();
    }
    let mut words = vec![0; 8 * RESIDUES];
    let mut floats = vec![0.0; 32 * RESIDUES];
    let mut out = String::new();
    let counts = match plan(bytes, 0, &mut words, &mut floats) {
        Ok((counts, _)) => counts,
        Err(refusal) => {
            out.push_str("refused ");
            out.push_str(&refusal.number.to_string());
            for v in refusal.values() {
                write!(out, " {v}").unwrap();
            }
            out.push('\n');
            return out;
        }
    };
    writeln!(
        out,
        "tubes {} vertices {} triangles {}",
        counts.k, counts.v, counts.t
    )
    .unwrap();
    for k in 0..counts.k {
        let (_, [kind, residue, n, vertex, triangle]) =
            plan(bytes, k, &mut words, &mut floats).expect("the same job gives the same answer");
        writeln!(
            out,
            "tube {k} kind {kind} residue {residue} length {n} vertex {vertex} triangle {triangle}"
        )
        .unwrap();
    }
    out
}
