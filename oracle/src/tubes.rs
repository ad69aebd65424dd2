//! What 01 adds beside the mesh: the tube list with its five words and boxes, and the sums K, V, T.

use crate::{
    stand_ins::{SecondaryStructure, Vertex},
    wrong::{Mutation, wrong},
};

/// 01: 'V is at most 1,048,576.'
pub const MAX_VERTICES: u64 = 1_048_576;

/// 01, bench: 'n = 2 gives .. 74, 144; n = 3 gives 138, 272.'
pub fn vertices_of(n: u64) -> u64 {
    64 * n - 54
}

pub fn triangles_of(n: u64) -> u64 {
    128 * n - 112
}

/// List and count the tubes, or build their mesh too.
#[derive(Clone, Copy, PartialEq)]
pub enum Pass {
    List,
    Build,
}

#[derive(Clone, Debug)]
pub struct Tube {
    /// kind, first residue, residues n, first vertex, first triangle
    pub words: [u32; 5],
    /// least x, y, z, then greatest x, y, z; zeros until there are vertices. A list alone has none, and the plan shows no box.
    pub bounds: [f32; 6],
}

/// The sums do not wrap: thousands of overlapping segments pass 2^32 vertices. Only tubes within the vertex limit are kept, since past
/// it there is nothing but refusal 10.
#[derive(Default)]
pub struct Tubes {
    pub list: Vec<Tube>,
    pub k: u64,
    pub v: u64,
    pub t: u64,
}

impl Tubes {
    pub fn new() -> Self {
        Self::default()
    }

    pub fn add(&mut self, ss: SecondaryStructure, first_residue: usize, n: usize) {
        let residues = n as u64;
        if self.v + vertices_of(residues) <= MAX_VERTICES {
            let kind = match ss {
                SecondaryStructure::Coil => 0,
                SecondaryStructure::Helix => 1,
                SecondaryStructure::Sheet => 2,
            };
            self.list.push(Tube {
                words: [
                    kind,
                    first_residue as u32,
                    n as u32,
                    self.v as u32,
                    self.t as u32,
                ],
                bounds: [0.0; 6],
            });
        }
        self.k += 1;
        self.v += vertices_of(residues);
        self.t += triangles_of(residues);
    }

    /// The boxes, once the mesh is built. 02 §2: 'A box now takes the vertices of its tube, caps included, where document 01 takes C-alphas;
    /// all else about it stays.' A tube's vertices stand from its first on: first ring, start centre, later rings, end centre.
    pub fn bound(&mut self, vertices: &[Vertex]) {
        // The mistake: the box of the C-alphas stays, which came with the list.
        if wrong(Mutation::BoxOfAlphas) {
            return;
        }
        for tube in &mut self.list {
            let [_, _, n, first, _] = tube.words;
            let mut own = &vertices[first as usize..][..vertices_of(n as u64) as usize];
            if wrong(Mutation::BoxOfFirstRing) {
                own = &own[..8];
            }
            tube.bounds = if wrong(Mutation::BoxOfNormals) {
                bounds(own.iter().map(|v| v.normal.to_arr()))
            } else {
                bounds(own.iter().map(|v| v.position))
            };
        }
    }
}

/// 01: 'the least and greatest C-alpha coordinate on each axis over the tube's frames; the earlier of equals is kept', of which 02 §2 changes
/// the points alone. So the tests are strict: of -0 and +0 the earlier stays. The documents do not speak of NaN; by the same tests a later
/// one is passed over, and one that is first stays for ever, which `f32::min` and `f32::max` would let go.
pub fn bounds(mut points: impl Iterator<Item = [f32; 3]>) -> [f32; 6] {
    // The mistake: an equal coordinate takes the place of the one before it.
    let later = wrong(Mutation::BoxLaterOfEquals);
    let first = points.next().expect("a tube has vertices");
    let (mut least, mut greatest) = (first, first);
    for p in points {
        for a in 0..3 {
            if p[a] < least[a] || later && p[a] == least[a] {
                least[a] = p[a];
            }
            if p[a] > greatest[a] || later && p[a] == greatest[a] {
                greatest[a] = p[a];
            }
        }
    }
    [
        least[0],
        least[1],
        least[2],
        greatest[0],
        greatest[1],
        greatest[2],
    ]
}
