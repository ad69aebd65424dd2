//! The calls that 01 adds: build, plan and the tube call, with the final contents of every lent buffer and of the scratch.

use crate::{
    job::{Job, Refusal, decode},
    ribbon_mesh::build_ribbon_mesh,
    stand_ins::Mesh,
    tubes::{MAX_VERTICES, Pass, Tubes, triangles_of},
    wrong::{Mutation, wrong},
};

/// The eight lent buffers. Places past what a call writes stay as they were.
#[derive(Clone)]
pub struct Buffers {
    pub positions: Vec<f32>,
    pub normals: Vec<f32>,
    pub tags: Vec<u32>,
    pub triangles: Vec<u32>,
    pub tubes: Vec<u32>,
    pub boxes: Vec<f32>,
    pub words: Vec<u32>,
    pub floats: Vec<f32>,
}

impl Buffers {
    /// The lengths of the six output buffers.
    pub fn outputs(&self) -> [u64; 6] {
        [
            self.positions.len(),
            self.normals.len(),
            self.tags.len(),
            self.triangles.len(),
            self.tubes.len(),
            self.boxes.len(),
        ]
        .map(|n| n as u64)
    }
}

#[derive(Clone, Copy, Debug, PartialEq, Eq)]
pub struct Counts {
    pub k: u32,
    pub v: u32,
    pub t: u32,
}

/// 01: 'positions 3V f32, normals 3V f32, tags V u32, triangles 3T u32, tubes 5K u32, boxes 6K f32. Scratch: 8R u32 and 32R f32.'
pub fn needs(k: u64, v: u64, t: u64, r: u64) -> [u64; 8] {
    [3 * v, 3 * v, v, 3 * t, 5 * k, 6 * k, 8 * r, 32 * r]
}

fn run(job: &Job, pass: Pass) -> (Tubes, Mesh) {
    build_ribbon_mesh(&job.backbone, &job.atoms, &job.residues, &job.chains, pass)
}

/// The tube list alone; nothing is built.
pub fn list(job: &Job) -> Tubes {
    run(job, Pass::List).0
}

/// Check 9, which stands between those of the job and those of its tubes.
pub fn check_scratch(job: &Job, words: &[u32], floats: &[f32]) -> Result<(), Refusal> {
    let r = job.residues.len();
    if words.len() < 8 * r || floats.len() < 32 * r {
        return Err(Refusal::new(9, 0));
    }
    Ok(())
}

/// 01: 'After any call that passes check 9 the first 8R and the first 32R of them are 0 (plus zero).'
fn clear_scratch(job: &Job, words: &mut [u32], floats: &mut [f32]) {
    let r = job.residues.len();
    if wrong(Mutation::ScratchAllCleared) {
        words.fill(0);
        floats.fill(0.0);
    }
    words[..8 * r].fill(0);
    floats[..32 * r].fill(0.0);
}

fn check_vertices(tubes: &Tubes) -> Result<Counts, Refusal> {
    if tubes.v > MAX_VERTICES || wrong(Mutation::VertexLimitExclusive) && tubes.v == MAX_VERTICES {
        return Err(Refusal::new(10, 0));
    }
    Ok(Counts {
        k: tubes.k as u32,
        v: tubes.v as u32,
        t: tubes.t as u32,
    })
}

/// 01: '11 | an output buffer too short | K, V, T'.
fn check_outputs(tubes: &Tubes, b: &Buffers) -> Result<(), Refusal> {
    let mut needs = needs(tubes.k, tubes.v, tubes.t, 0);
    if wrong(Mutation::BoxesNotChecked) {
        needs[5] = 0;
    }
    if b.outputs().into_iter().zip(needs).any(|(l, n)| l < n) {
        return Err(Refusal {
            number: 11,
            carried: [tubes.k as u32, tubes.v as u32, tubes.t as u32],
        });
    }
    Ok(())
}

pub fn build(bytes: &[u8], b: &mut Buffers) -> Result<Counts, Refusal> {
    let decoded = decode(bytes);
    // The mistake: the scratch is used before all checks are made.
    if wrong(Mutation::ScratchClearedOnEight) && decoded.as_ref().is_err_and(|r| r.number == 8) {
        b.words.fill(0);
    }
    let job = decoded?;
    check_scratch(&job, &b.words, &b.floats)?;
    let tubes = list(&job);
    if wrong(Mutation::TubesWrittenOnEleven) {
        put(&mut b.tubes, tubes.list.iter().flat_map(|t| t.words));
    }
    let checked = if wrong(Mutation::ElevenBeforeTen) {
        check_outputs(&tubes, b).and_then(|()| check_vertices(&tubes))
    } else {
        check_vertices(&tubes).and_then(|counts| check_outputs(&tubes, b).map(|()| counts))
    };
    if wrong(Mutation::ScratchLeftOnEleven) && checked.is_err_and(|r| r.number == 11) {
        return checked;
    }
    clear_scratch(&job, &mut b.words, &mut b.floats);
    let counts = checked?;
    let (mut tubes, mesh) = run(&job, Pass::Build);
    tubes.bound(&mesh.vertices);
    write(&tubes, &mesh, b);
    Ok(counts)
}

fn write(tubes: &Tubes, mesh: &Mesh, b: &mut Buffers) {
    assert_eq!(mesh.vertices.len() as u64, tubes.v, "V of the tube list");
    assert_eq!(mesh.indices.len() as u64, 3 * tubes.t, "T of the tube list");
    let vertices = &mesh.vertices;
    put(&mut b.positions, vertices.iter().flat_map(|v| v.position));
    put(
        &mut b.normals,
        vertices.iter().flat_map(|v| v.normal.to_arr()),
    );
    put(&mut b.tags, vertices.iter().map(|v| v.color as u32));
    put(&mut b.triangles, mesh.indices.iter().map(|&c| c as u32));
    put(&mut b.tubes, tubes.list.iter().flat_map(|t| t.words));
    put(&mut b.boxes, tubes.list.iter().flat_map(|t| t.bounds));
}

fn put<T>(buffer: &mut [T], values: impl Iterator<Item = T>) {
    for (place, value) in buffer.iter_mut().zip(values) {
        *place = value;
    }
}

/// 01: 'The plan call is given a tube number k, has checks 1 to 10 and answers K, V, T and tube k's five words, all five 0 if k is K or
/// more.'
pub fn plan(
    bytes: &[u8],
    k: u32,
    words: &mut [u32],
    floats: &mut [f32],
) -> Result<(Counts, [u32; 5]), Refusal> {
    let job = decode(bytes)?;
    check_scratch(&job, words, floats)?;
    let tubes = list(&job);
    clear_scratch(&job, words, floats);
    let counts = check_vertices(&tubes)?;
    let five = match tubes.list.get(k as usize) {
        Some(tube) => tube.words,
        None if wrong(Mutation::PlanLastPastK) => tubes.list.last().map_or([0; 5], |t| t.words),
        None => [0; 5],
    };
    Ok((counts, five))
}

/// 01: 'The tube call returns the part of the caller's own triangle buffer for tube k.'
pub fn tube<'a>(tubes: &[u32], triangles: &'a [u32], k: u32) -> &'a [u32] {
    // The mistakes: places modulo 2^32, and that with no limit on n.
    let unlimited = wrong(Mutation::TubeUnlimited);
    let place = |n: u64| {
        if wrong(Mutation::TubeWraps) || unlimited {
            n % (1 << 32)
        } else {
            n
        }
    };
    let at = place(5 * k as u64);
    if at + 5 > tubes.len() as u64 {
        return &[];
    }
    let n = tubes[at as usize + 2] as u64;
    let first = tubes[at as usize + 4] as u64;
    if n < 2 || n > 16_384 && !unlimited {
        return &[];
    }
    let from = place(3 * first);
    let to = from + place(3 * triangles_of(n));
    if to > triangles.len() as u64 {
        return &[];
    }
    &triangles[from as usize..to as usize]
}
