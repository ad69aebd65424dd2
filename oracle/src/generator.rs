//! Makes requests: jobs of every kind, each refusal at its boundary, damaged jobs, lent lengths around each need, tube buffers with any
//! contents, PDB files, and by themselves jobs out of order, jobs for boxes, jobs for end caps, STL, and two parties. Request `i` of a seed does not depend on the
//! others, so that a difference can be made again alone.

use crate::{
    calls::{list, needs},
    caps::capped,
    job::{LIMIT, MAX_RESIDUES, NONE, RawAtom, RawJob, decode, fix_length},
    jobs::{chaos, job, out_of_order, small},
    party_requests, pdb_files,
    protocol::{BUILD, MOST, MOST_BYTES, PLAN, Request, TUBE, encode_words},
    rng::Rng,
    stl_files,
    tied::tied,
    tubes::triangles_of,
};

/// The most that builds are lent here: 34,000 vertices with all that goes with them. A program's arrays have more positions since they list files
/// too, but these requests stay those of the recorded runs.
const LENT: [u32; 8] = {
    let mut most = MOST;
    most[0] = 3 * 34_000;
    most
};

fn next_up(x: f64) -> f64 {
    f64::from_bits(x.to_bits() + 1)
}

// ── Damage ────────────────────────────────────────────────────────────────────

/// One field set to a value that 01 refuses, or to the last one that it allows.
pub fn bad_field(rng: &mut Rng, job: &mut RawJob) {
    let (c, s, a) = (job.visible.len(), job.segments.len(), job.atoms.len());
    match rng.below(8) {
        0 => job.version = rng.pick(&[0, 2, 3, 255]),
        1 if c > 0 => job.visible[rng.below(c as u64) as usize] = rng.pick(&[2, 255]),
        2 if s > 0 => job.segments[rng.below(s as u64) as usize].kind = rng.pick(&[3, 255]),
        3 => job.residues = rng.pick(&[0, MAX_RESIDUES, MAX_RESIDUES + 1, u16::MAX]),
        _ if a > 0 => {
            let (i, residues) = (rng.below(a as u64) as usize, job.residues);
            bad_atom(rng, &mut job.atoms[i], residues, c as u16);
        }
        _ => {}
    }
}

fn bad_atom(rng: &mut Rng, a: &mut RawAtom, residues: u16, chains: u16) {
    match rng.below(5) {
        0 => a.role = rng.pick(&[3, 255]),
        1 => a.residue = rng.pick(&[residues, residues.wrapping_add(1), NONE - 1]),
        2 => a.chain = rng.pick(&[chains, chains.wrapping_add(1), NONE - 1]),
        _ => {
            let far = [
                LIMIT,
                -LIMIT,
                next_up(LIMIT),
                -next_up(LIMIT),
                1e300,
                f64::INFINITY,
                f64::NEG_INFINITY,
                f64::NAN,
                f64::from_bits(0xFFF0_0000_0000_0001),
            ];
            a.xyz[rng.below(3) as usize] = rng.pick(&far);
        }
    }
}

/// Bytes cut, lengthened or flipped, the length field put right afterwards or not.
pub fn damage(rng: &mut Rng, b: &mut Vec<u8>) {
    let n = b.len() as u64;
    match rng.below(7) {
        0 => b.truncate(rng.below(n + 1) as usize),
        1 => b.truncate(rng.pick(&[0, 1, 4, 11, 12, 13]).min(b.len())),
        2 => b.extend((0..rng.between(1, 40)).map(|i| i as u8)),
        3 => b[rng.below(n) as usize] ^= 1 << rng.below(8),
        4 => b[rng.below(n) as usize] = rng.word() as u8,
        5 => b[rng.below(13) as usize] ^= 1 << rng.below(8),
        _ => {
            // The length field alone, by one.
            let field = u32::from_be_bytes(b[..4].try_into().unwrap());
            let other = if rng.percent(50) {
                field + 1
            } else {
                field - 1
            };
            b[..4].copy_from_slice(&other.to_be_bytes());
            return;
        }
    }
    if rng.percent(60) {
        fix_length(b);
    }
}

pub fn job_bytes(rng: &mut Rng) -> Vec<u8> {
    let mut job = job(rng);
    if rng.percent(12) {
        for _ in 0..rng.between(1, 3) {
            bad_field(rng, &mut job);
        }
    }
    let mut b = job.bytes();
    if rng.percent(7) {
        damage(rng, &mut b);
    }
    b.truncate(MOST_BYTES);
    b
}

// ── Requests ──────────────────────────────────────────────────────────────────

/// The lengths that this job needs; for a refused one lengths that show whether anything was written.
fn needed(rng: &mut Rng, bytes: &[u8]) -> [u64; 8] {
    match decode(bytes) {
        Ok(job) => {
            let tubes = list(&job);
            needs(tubes.k, tubes.v, tubes.t, job.residues.len() as u64)
        }
        // A program that does not refuse at once has room to write.
        Err(_) => {
            let residues = bytes
                .get(7..9)
                .map_or(0, |r| r[0] as u64 * 256 + r[1] as u64);
            let (k, v, t) = rng.pick(&[(0, 0, 0), (1, 74, 144), (3, 350, 688)]);
            needs(k, v, t, residues.min(64))
        }
    }
}

/// Lengths at, below and above each need, and 0.
fn lengths(rng: &mut Rng, bytes: &[u8]) -> [u32; 8] {
    let mut n = needed(rng, bytes);
    let one = rng.below(8) as usize;
    match rng.below(20) {
        0..=8 => {}
        9..=12 => n = n.map(|l| l + rng.pick(&[0, 0, 1, 2, 7])),
        13 => n[one] += rng.between(1, 300),
        14..=15 => n[one] = n[one].saturating_sub(1),
        16 => n[6 + one % 2] = n[6 + one % 2].saturating_sub(1),
        17 => n[one] = 0,
        18 => n[..6].fill(0),
        _ => n[one] = rng.below(n[one] + 1),
    }
    std::array::from_fn(|i| n[i].min(LENT[i] as u64) as u32)
}

fn plan_request(rng: &mut Rng) -> Request {
    let bytes = job_bytes(rng);
    plan_of(rng, bytes)
}

fn plan_of(rng: &mut Rng, bytes: Vec<u8>) -> Request {
    let mut lengths = lengths(rng, &bytes);
    // A plan is lent no output buffer: whatever is said of them changes nothing.
    let output = if rng.percent(90) { 0 } else { 3 };
    lengths[..6].fill(output);
    let tubes = decode(&bytes).map_or(0, |job| list(&job).k);
    let k = match rng.below(8) {
        0 => tubes,
        1 => tubes.saturating_sub(1),
        2 => tubes + 1,
        3 => u32::MAX as u64,
        4 => rng.word() >> 32,
        _ => rng.below(tubes + 1),
    };
    Request {
        call: PLAN,
        lengths,
        k: k.min(u32::MAX as u64) as u32,
        bytes,
    }
}

/// Tripled, or with a part's length added, these wrap to small places.
const FIRST_WRAPS: [u32; 5] = [
    1_431_655_765,
    1_431_655_766,
    2_863_311_531,
    u32::MAX,
    1 << 31,
];
/// Five times these wrap to small places.
const K_WRAPS: [u32; 5] = [
    858_993_459,
    858_993_460,
    1_717_986_919,
    3_435_973_837,
    u32::MAX,
];

/// A tube call before its bytes are laid out.
struct TubeCall {
    tubes: Vec<u32>,
    /// How long the triangle buffer is.
    places: u32,
    k: u32,
}

/// A good record among others of any contents, over as many triangles as it needs and a few more.
fn tube_call(rng: &mut Rng) -> TubeCall {
    let n = rng.pick(&[2, 2, 2, 3, 3, 4, 5]);
    let first = rng.pick(&[0, 0, 1, 2, 7, 100]);
    let k = rng.pick(&[0, 0, 1, 2, 3]);
    let any = |rng: &mut Rng, n: u64| (0..n).map(|_| rng.word() as u32).collect::<Vec<_>>();
    let mut tubes = any(rng, 5 * k as u64);
    tubes.extend([
        rng.below(3) as u32,
        rng.below(100) as u32,
        n,
        64 * first,
        first,
    ]);
    let more = rng.below(7);
    tubes.extend(any(rng, more));
    let spare = rng.pick(&[0, 0, 0, 1, 2, 3, 50]);
    TubeCall {
        tubes,
        places: 3 * first + 3 * triangles_of(n as u64) as u32 + spare,
        k,
    }
}

/// One thing that makes the part empty, or another part.
fn spoil(rng: &mut Rng, call: &mut TubeCall) {
    let at = 5 * call.k as usize;
    match rng.below(10) {
        0 => call.tubes[at + 2] = rng.pick(&[0, 1, 16_384, 16_385, u32::MAX]),
        // 128 n wraps to that of a small n here.
        1 => call.tubes[at + 2] += (1 << 25) * rng.between(1, 127) as u32,
        2 => call.tubes[at + 4] = rng.pick(&FIRST_WRAPS),
        3 => call.tubes.truncate(rng.below(at as u64 + 5) as usize),
        4 => call.tubes.truncate(at + 4),
        5 => call.k = rng.pick(&K_WRAPS),
        6 => call.k += 1,
        7 => call.tubes[at + 4] = rng.below(200) as u32,
        8 => call.places = rng.below(call.places as u64 + 1) as u32,
        _ => call.places -= rng.between(1, 60) as u32,
    }
}

/// Tube records with any contents, over triangles with any contents.
fn tube_request(rng: &mut Rng) -> Request {
    let mut call = tube_call(rng);
    if rng.percent(60) {
        spoil(rng, &mut call);
    }
    let mut words = call.tubes.clone();
    words.extend((0..call.places).map(|_| rng.word() as u32));
    let mut lengths = [0; 8];
    lengths[3] = call.places;
    lengths[4] = call.tubes.len() as u32;
    Request {
        call: TUBE,
        lengths,
        k: call.k,
        bytes: encode_words(&words),
    }
}

/// A call that no program knows, or a length that no program has. Call 5 is known, but its bytes are no mesh buffers: they are passed over too.
fn refused_request(rng: &mut Rng) -> Request {
    let mut r = Request {
        call: rng.pick(&[BUILD, PLAN]),
        lengths: [0; 8],
        k: 0,
        bytes: chaos(rng).bytes(),
    };
    if rng.percent(50) {
        r.call = rng.pick(&[0, 5, 255]);
    } else {
        r.lengths[rng.between(6, 7) as usize] = u32::MAX;
    }
    r
}

/// A request to read a PDB file.
pub fn file_request(seed: u64, index: u64) -> Request {
    pdb_files::request(&mut Rng::new(seed, index))
}

/// A request to write or to read STL.
pub fn stl_request(seed: u64, index: u64) -> Request {
    stl_files::request(&mut Rng::new(seed, index))
}

/// A request of one of two parties.
pub fn party_request(seed: u64, index: u64) -> Request {
    party_requests::request(seed, index)
}

/// A build or a plan of a job whose atoms stand out of order.
pub fn order_request(seed: u64, index: u64) -> Request {
    let mut rng = Rng::new(seed, index);
    let rng = &mut rng;
    let mut job = job(rng);
    out_of_order(rng, &mut job);
    let mut bytes = job.bytes();
    bytes.truncate(MOST_BYTES);
    if rng.percent(20) {
        return plan_of(rng, bytes);
    }
    let lengths = lengths(rng, &bytes);
    Request {
        call: BUILD,
        lengths,
        k: 0,
        bytes,
    }
}

/// The needs or more, or one output buffer a place short, the boxes before all.
fn box_lengths(rng: &mut Rng, bytes: &[u8]) -> [u32; 8] {
    let mut n = needed(rng, bytes);
    let one = rng.below(6) as usize;
    match rng.below(20) {
        0..=10 => {}
        11..=15 => n = n.map(|l| l + rng.pick(&[0, 0, 1, 2, 7])),
        16 => n[5] += rng.between(1, 12),
        17..=18 => n[5] = n[5].saturating_sub(1),
        _ => n[one] = n[one].saturating_sub(1),
    }
    std::array::from_fn(|i| n[i].min(LENT[i] as u64) as u32)
}

/// A build, or now and then a plan, of a job with small tubes whose boxes have equal coordinates to choose from, or of an ordinary small one.
pub fn box_request(seed: u64, index: u64) -> Request {
    let mut rng = Rng::new(seed, index);
    let rng = &mut rng;
    let job = if rng.percent(75) {
        tied(rng)
    } else {
        small(rng)
    };
    let bytes = job.bytes();
    if rng.percent(5) {
        return plan_of(rng, bytes);
    }
    let lengths = box_lengths(rng, &bytes);
    Request {
        call: BUILD,
        lengths,
        k: 0,
        bytes,
    }
}

/// A build, now and then a plan or a party's build, of a job whose tubes end in two points at one place, or nearly, or of an ordinary small one.
pub fn cap_request(seed: u64, index: u64) -> Request {
    let mut rng = Rng::new(seed, index);
    let rng = &mut rng;
    let job = if rng.percent(90) {
        capped(rng)
    } else {
        small(rng)
    };
    if rng.percent(10) {
        return party_requests::build_of(rng, job);
    }
    let bytes = job.bytes();
    if rng.percent(5) {
        return plan_of(rng, bytes);
    }
    let lengths = box_lengths(rng, &bytes);
    Request {
        call: BUILD,
        lengths,
        k: 0,
        bytes,
    }
}

/// Which requests are made.
#[derive(Clone, Copy, Debug, PartialEq, Eq)]
pub enum Kind {
    /// Calls 1 to 3.
    Jobs,
    /// Call 4.
    Files,
    Both,
    /// Calls 1 and 2, on atoms out of order.
    Orders,
    /// Calls 1 and 2, on small tubes at which the earlier of equal coordinates shows.
    Boxes,
    /// Calls 1, 2 and 7, on tubes whose last two spline points coincide, or nearly do.
    Caps,
    /// Calls 5 and 6.
    Stl,
    /// Calls 7 and 8.
    Parties,
}

impl Kind {
    pub fn by_name(name: &str) -> Option<Kind> {
        match name {
            "jobs" => Some(Kind::Jobs),
            "files" => Some(Kind::Files),
            "both" => Some(Kind::Both),
            "orders" => Some(Kind::Orders),
            "boxes" => Some(Kind::Boxes),
            "caps" => Some(Kind::Caps),
            "stl" => Some(Kind::Stl),
            "parties" => Some(Kind::Parties),
            _ => None,
        }
    }

    /// Request `index` of `seed`; of both kinds every third one reads a file.
    pub fn request(self, seed: u64, index: u64) -> Request {
        match self {
            Kind::Files => file_request(seed, index),
            Kind::Orders => order_request(seed, index),
            Kind::Boxes => box_request(seed, index),
            Kind::Caps => cap_request(seed, index),
            Kind::Stl => stl_request(seed, index),
            Kind::Parties => party_request(seed, index),
            Kind::Both if index % 3 == 2 => file_request(seed, index),
            _ => job_request(seed, index),
        }
    }
}

/// Request `index` of `seed`, of both kinds.
pub fn request(seed: u64, index: u64) -> Request {
    Kind::Both.request(seed, index)
}

/// A request of calls 1 to 3.
pub fn job_request(seed: u64, index: u64) -> Request {
    let mut rng = Rng::new(seed, index);
    let rng = &mut rng;
    match rng.below(1000) {
        0..=599 => {
            let bytes = job_bytes(rng);
            let lengths = lengths(rng, &bytes);
            Request {
                call: BUILD,
                lengths,
                k: rng.below(3) as u32,
                bytes,
            }
        }
        600..=799 => plan_request(rng),
        800..=997 => tube_request(rng),
        _ => refused_request(rng),
    }
}
