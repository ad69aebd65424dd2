//! The bench cases of 01 as jobs and requests, a job for 02's boxes, two laboratories on one job (02 §5), and tubes whose end cap has no chord
//! (02 §6), for the tests and for the recorded answers.

use crate::{
    calls::needs,
    job::{NONE, RawAtom, RawJob, RawSegment, record_bytes},
    jobs::{segment, with_vertices},
    parties::{Share, Shares},
    protocol::{BUILD, BUILD_SHARE, PLAN, PLAN_RECORDS, PartyBytes, Request, TUBE},
    tubes::{MAX_VERTICES, triangles_of, vertices_of},
};

/// C-alphas in one visible chain, residues and serials ascending from 0 and 1.
pub fn chain_at(points: &[[f64; 3]]) -> RawJob {
    RawJob {
        residues: points.len() as u16,
        visible: vec![1],
        atoms: points
            .iter()
            .enumerate()
            .map(|(i, &xyz)| RawAtom {
                serial: i as u32 + 1,
                role: 1,
                residue: i as u16,
                chain: 0,
                xyz,
            })
            .collect(),
        ..RawJob::default()
    }
}

/// `n` residues 4 apart along x.
pub fn straight(n: usize) -> RawJob {
    let points: Vec<_> = (0..n).map(|i| [4.0 * i as f64, 0.0, 0.0]).collect();
    chain_at(&points)
}

/// `n` residues 4 apart along x, all of them one segment.
pub fn straight_segment(n: usize, kind: u8) -> RawJob {
    let mut job = straight(n);
    job.segments.push(RawSegment {
        kind,
        start: 1,
        end: n as u32,
    });
    job
}

/// 01: 'Six residues 4 apart in one chain, helix over 2 and 3'.
pub fn six_residues() -> RawJob {
    let mut job = straight(6);
    job.segments.push(RawSegment {
        kind: 1,
        start: 3,
        end: 4,
    });
    job
}

/// Two residues, the second one step from the origin.
pub fn step(x: f64, y: f64, z: f64) -> RawJob {
    chain_at(&[[0.0, 0.0, 0.0], [x, y, z]])
}

/// The job of `ribbon-plan`'s example: 80 bytes.
pub fn two_residues() -> RawJob {
    step(4.0, 0.0, 0.0)
}

/// 01's four narrowing cases as coordinates. The start centre stands at the first C-alpha exactly and shows three of them; the fourth, in the
/// second residue, it shows where the two change places.
pub fn narrowing() -> RawJob {
    let third = 1.0 + 3.0 * 2f64.powi(-24);
    chain_at(&[
        [
            f64::from_bits(0x3FB9_9999_9999_999A),
            1.0 + 2f64.powi(-24),
            third,
        ],
        [2f64.powi(-150), 1.5, 2.0],
    ])
}

/// The smallest job known at which 'the earlier of equals is kept' shows in a box: its greatest y is +0, and would be -0 by the later. The step
/// is so short that the tangent falls back to y, so that rings lie across y, and half of -2^-149 is -0.
pub fn ties() -> RawJob {
    let mut job = chain_at(&[[0.0; 3], [0.0, -(2f64.powi(-149)), 0.0]]);
    job.atoms.push(RawAtom {
        serial: 1,
        role: 2,
        residue: 0,
        chain: 0,
        xyz: [-1.0, 0.0, 0.0],
    });
    job.segments.push(RawSegment {
        kind: 0,
        start: 1,
        end: 2,
    });
    job
}

/// One atom with one coordinate.
pub fn coordinate(x: f64) -> RawJob {
    let mut job = chain_at(&[[0.0, x, 0.0]]);
    job.atoms[0].role = 0;
    job
}

/// A build with exactly these tubes' needs, `less` taken off the vertex room.
pub fn build_request(job: &RawJob, [k, v, t]: [u64; 3], less: u32) -> Request {
    let n = needs(k, v, t, job.residues as u64).map(|l| l as u32);
    let mut lengths = n;
    lengths[0] -= 3 * less;
    lengths[1] -= 3 * less;
    lengths[2] -= less;
    Request {
        call: BUILD,
        lengths,
        k: 0,
        bytes: job.bytes(),
    }
}

pub fn plan_request(job: &RawJob, k: u32) -> Request {
    let n = needs(0, 0, 0, job.residues as u64).map(|l| l as u32);
    Request {
        call: PLAN,
        lengths: n,
        k,
        bytes: job.bytes(),
    }
}

/// The tube call on one record of `n` residues from triangle `first`, over `places` words.
pub fn tube_request(n: u32, first: u32, places: u32, k: u32) -> Request {
    let words = [0, 0, n, 0, first].into_iter().chain(0..places);
    Request {
        call: TUBE,
        lengths: [0, 0, 0, places, 5, 0, 0, 0],
        k,
        bytes: words.flat_map(u32::to_be_bytes).collect(),
    }
}

/// The bench cases that a request can show, with their boundaries.
pub fn requests() -> Vec<Request> {
    let five = f32::from_bits(0x40A0_0001) as f64;
    let past = f64::from_bits(16384f64.to_bits() + 1);
    let one = [1, 74, 144];
    let room = triangles_of(2) as u32 * 3;
    vec![
        build_request(&RawJob::default(), [0, 0, 0], 0),
        plan_request(&RawJob::default(), 0),
        build_request(&straight(1), [0, 0, 0], 0),
        build_request(&two_residues(), one, 0),
        plan_request(&two_residues(), 0),
        plan_request(&two_residues(), 1),
        build_request(&straight(3), [1, 138, 272], 0),
        build_request(&six_residues(), [3, 350, 688], 0),
        build_request(&six_residues(), [3, 350, 688], 1),
        plan_request(&six_residues(), 0),
        plan_request(&six_residues(), 1),
        plan_request(&six_residues(), 2),
        build_request(&step(3.0, 4.0, 0.0), one, 0),
        build_request(&step(5.0, 0.0, 0.0), one, 0),
        build_request(&step(five, 0.0, 0.0), [0, 0, 0], 0),
        build_request(&step(3.0, 4.0, 0.0012), one, 0),
        build_request(&narrowing(), one, 0),
        build_request(&straight_segment(3, 2), [1, 138, 272], 0),
        build_request(&straight_segment(2, 1), one, 0),
        build_request(&coordinate(16384.0), [0, 0, 0], 0),
        build_request(&coordinate(past), [0, 0, 0], 0),
        build_request(&coordinate(-16384.0), [0, 0, 0], 0),
        build_request(&coordinate(-past), [0, 0, 0], 0),
        build_request(&coordinate(f64::NAN), [0, 0, 0], 0),
        plan_request(&at_vertex_limit(0), 287),
        plan_request(&at_vertex_limit(2), 0),
        tube_request(2, 0, room, 0),
        tube_request(2, 0, room - 1, 0),
        tube_request(2, 1, room + 3, 0),
        tube_request(2, 1, room, 1),
        tube_request(1, 0, room, 0),
        tube_request(16_384, 0, room, 0),
        tube_request(16_385, 0, room, 0),
    ]
}

/// A job of 1,048,576 vertices and `more`.
pub fn at_vertex_limit(more: u64) -> RawJob {
    let mut job = with_vertices(MAX_VERTICES + more, 64).expect("such lengths exist");
    job.atoms.iter_mut().for_each(|a| a.chain = NONE);
    job
}

/// A party's build, whole buffers of these lengths.
fn party_build(party: u32, lengths: [u32; 8], bytes: PartyBytes) -> Request {
    Request {
        call: BUILD_SHARE,
        lengths,
        k: party,
        bytes: bytes.encode(),
    }
}

/// Two laboratories on the two residues: the first marks nothing and has a coil, the second a sheet over both, in touching shares that fill the
/// buffers. The builds of the first, of the second and of the first again, and a plan of the second.
pub fn laboratories() -> Vec<Request> {
    let need = needs(1, 74, 144, 2);
    let share = |party: u64| std::array::from_fn(|i| Share::new(party * need[i], need[i]));
    let marks = [Vec::new(), record_bytes(&[segment(2, 1, 2)])];
    let lengths = std::array::from_fn(|i| need[i] as u32 * if i < 6 { 2 } else { 1 });
    let bytes = |party: usize| PartyBytes {
        shares: Some([share(0), share(1)]),
        records: marks[party].clone(),
        job: two_residues().bytes(),
    };
    let build = |party: usize| party_build(party as u32, lengths, bytes(party));
    let shares = None;
    let plan = Request {
        call: PLAN_RECORDS,
        bytes: PartyBytes { shares, ..bytes(1) }.encode(),
        ..plan_request(&two_residues(), 0)
    };
    vec![build(0), build(1), build(0), plan]
}

/// A party whose share of normals alone is a place short, though the buffer is not.
pub fn party_short_of_normals() -> Request {
    let need = needs(1, 74, 144, 2);
    let mut mine: Shares = std::array::from_fn(|i| Share::new(0, need[i]));
    mine[1].length -= 1;
    let bytes = PartyBytes {
        shares: Some([mine, [Share::default(); 6]]),
        records: Vec::new(),
        job: two_residues().bytes(),
    };
    party_build(0, need.map(|n| n as u32), bytes)
}

/// A party past the vertex limit, in no room but the scratch.
pub fn party_past_the_limit() -> Request {
    let mut job = with_vertices(MAX_VERTICES + 2, 32).expect("such lengths exist");
    let records = record_bytes(&std::mem::take(&mut job.segments));
    let bytes = PartyBytes {
        shares: Some([[Share::default(); 6]; 2]),
        records,
        job: job.bytes(),
    };
    let lengths = needs(0, 0, 0, job.residues as u64).map(|n| n as u32);
    party_build(0, lengths, bytes)
}

/// One tube, and the three words of its end cap's normal.
pub struct Cap {
    pub job: RawJob,
    pub normal: [u32; 3],
}

impl Cap {
    pub fn request(&self) -> Request {
        let n = self.job.residues as u64;
        build_request(&self.job, [1, vertices_of(n), triangles_of(n)], 0)
    }
}

/// C-alphas on the x axis.
pub fn on_x(xs: &[f64]) -> RawJob {
    let points: Vec<_> = xs.iter().map(|&x| [x, 0.0, 0.0]).collect();
    chain_at(&points)
}

/// The same job, all of it one segment.
pub fn all_of(mut job: RawJob, kind: u8) -> RawJob {
    job.segments.push(segment(kind, 1, job.residues as u32));
    job
}

/// 02 §6: the smallest tubes known whose end cap has no chord to take its normal from, or hardly any.
pub fn caps() -> Vec<Cap> {
    let (up, back) = (0x3F80_0000, 0xBF80_0000);
    let [x, y, minus_x] = [[up, 0, 0], [0, up, 0], [back, 0, 0]];
    // Its square is rounded to 0, that of the next f32 is not.
    let vanishes = 2f64.powi(-75);
    let next = f32::from_bits((vanishes as f32).to_bits() + 1) as f64;
    let (coil, helix, sheet) = (
        on_x,
        |xs: &[f64]| all_of(on_x(xs), 1),
        |xs: &[f64]| all_of(on_x(xs), 2),
    );
    let slanted = [[0.1, 0.2, 0.3], [3.9, 0.2, 0.3], [3.9, 0.2, 0.3]];
    [
        // Derivatives of 0, so that the tangent falls back to y.
        (coil(&[0.0, -0.0]), y),
        (coil(&[0.0, 1e-25]), y),
        (coil(&[0.0, vanishes]), y),
        (coil(&[0.0, 4.0, 4.0]), y),
        // C-alphas apart, which smoothing brings together at 1.
        (sheet(&[0.0, 4.5, 1.0]), y),
        // Chords of some length: the normal is theirs.
        (coil(&[0.0, next]), [0x3F35_04F4, 0, 0]),
        (coil(&[0.0, 4e-9]), x),
        (sheet(&[0.0, 4.0, 4.0]), x),
        // Derivatives that rounding leaves, which lead on or back.
        (coil(&[0.2, 0.2]), x),
        (coil(&[0.7, 0.7]), minus_x),
        // Two f64 that are one f32.
        (helix(&[0.7, 0.700_000_01]), minus_x),
        (sheet(&[0.7, 0.7]), minus_x),
        (coil(&[0.1, 4.1, 4.1]), minus_x),
        (helix(&[0.1, 4.1, 4.1]), minus_x),
        (sheet(&[0.4, 0.85, 0.5]), minus_x),
        (sheet(&[0.1, 4.1, 4.1, 4.1, 4.1, 4.1]), minus_x),
        (chain_at(&slanted), [0x3F7F_7E62, 0x3BFF_7E62, 0x3D7F_7E62]),
    ]
    .map(|(job, normal)| Cap { job, normal })
    .into()
}

/// A party's build of two residues at one place, in shares that the other has none of.
pub fn party_without_chord() -> Request {
    let need = needs(1, 74, 144, 2);
    let mine: Shares = std::array::from_fn(|i| Share::new(0, need[i]));
    let bytes = PartyBytes {
        shares: Some([[Share::default(); 6], mine]),
        records: record_bytes(&[segment(1, 1, 2)]),
        job: on_x(&[0.7, 0.7]).bytes(),
    };
    party_build(1, need.map(|n| n as u32), bytes)
}
