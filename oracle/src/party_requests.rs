//! Requests of the kind `parties`, calls 7 and 8: two parties' records on one job, and their shares of every buffer, dealt as they need them or with
//! one thing wrong. Of eight requests the last three are one party's build, the other's, and the first one's again, on the same job, shares and
//! lengths. Every 496th has very many records.

use crate::{
    calls::{list, needs},
    cases::straight,
    generator::{bad_field, damage},
    job::{RawJob, RawSegment, decode, record_bytes},
    jobs::{job, segment, small, with_vertices},
    parties::{MAX_RECORDS, RECORD, Share, Shares},
    protocol::{BUILD_SHARE, MOST, MOST_BYTES, PLAN_RECORDS, PartyBytes, Request},
    rng::Rng,
    tubes::MAX_VERTICES,
};

/// Requests from one run of three to the next, and of which the last three are a run.
const PERIOD: u64 = 8;
const RUN: u64 = 3;
/// One request in so many has very many records, by turns as `MANY` has them, so that 3,000 requests have all of them. It is in no run.
const SELDOM: u64 = 62 * PERIOD;

// ── The structure and its marks ───────────────────────────────────────────────

/// One job with S = 0, and both parties' records.
struct Marked {
    job: RawJob,
    segments: [Vec<RawSegment>; 2],
}

/// A few segments between atoms of the job; some are turned round.
fn marks(rng: &mut Rng, job: &RawJob) -> Vec<RawSegment> {
    let serial = |rng: &mut Rng| match job.atoms.len() as u64 {
        0 => rng.below(3) as u32,
        n => job.atoms[rng.below(n) as usize].serial,
    };
    let one = |rng: &mut Rng| {
        let (a, b) = (serial(rng), serial(rng));
        let turned = rng.percent(5);
        let (start, end) = if turned { (a, b) } else { (a.min(b), a.max(b)) };
        segment(rng.below(3) as u8, start, end)
    };
    (0..rng.below(5)).map(|_| one(rng)).collect()
}

/// A job at the limit of vertices, or just past it, by one party's marks alone.
fn at_the_limit(rng: &mut Rng) -> RawJob {
    let v = rng.pick(&[MAX_VERTICES, MAX_VERTICES + 2]);
    with_vertices(v, 64).expect("such lengths exist")
}

fn marked(rng: &mut Rng) -> Marked {
    let job = match rng.below(100) {
        0..=1 => at_the_limit(rng),
        2..=25 => job(rng),
        _ => small(rng),
    };
    with_marks(rng, job)
}

/// A job's own segments for one party; for the other none, the same, or others.
fn with_marks(rng: &mut Rng, mut job: RawJob) -> Marked {
    let own = std::mem::take(&mut job.segments);
    let other = match rng.below(10) {
        0..=1 => Vec::new(),
        2 => own.clone(),
        _ => marks(rng, &job),
    };
    let mut segments = [own, other];
    if rng.percent(50) {
        segments.reverse();
    }
    Marked { job, segments }
}

impl Marked {
    /// The lengths that each party needs; for a refused one lengths that show whether anything was written.
    fn needs(&self, rng: &mut Rng) -> [[u64; 8]; 2] {
        std::array::from_fn(|party| {
            let mut job = self.job.clone();
            job.segments = self.segments[party].clone();
            match decode(&job.bytes()) {
                Ok(job) => {
                    let tubes = list(&job);
                    needs(tubes.k, tubes.v, tubes.t, job.residues.len() as u64)
                }
                Err(_) => {
                    let (k, v, t) = rng.pick(&[(0, 0, 0), (1, 74, 144)]);
                    needs(k, v, t, self.job.residues.min(64) as u64)
                }
            }
        })
    }
}

// ── Shares ────────────────────────────────────────────────────────────────────

/// The lengths of the whole buffers, and each party's shares of six of them, beside what it needs.
struct Room {
    lengths: [u64; 8],
    shares: [Shares; 2],
    needs: [[u64; 8]; 2],
}

/// Shares exactly as they are needed, touching, in either order; or with places in front of them, between and behind, and in them.
fn deal(rng: &mut Rng, mut needs: [[u64; 8]; 2]) -> Room {
    let plain = rng.percent(40);
    let spare = |rng: &mut Rng, of: &[u64]| if plain { 0 } else { rng.pick(of) };
    let (first, mixed) = (rng.below(2) as usize, rng.percent(20));
    // Of two that are past the arrays together one has nothing.
    let past = |i: usize| needs[0][i] + needs[1][i] + 40 > MOST[i] as u64;
    if (0..6).any(past) {
        needs[1 - first][..6].fill(0);
    }
    let mut room = Room {
        lengths: needs[0],
        shares: Default::default(),
        needs,
    };
    for i in 0..6 {
        let first = if mixed { rng.below(2) as usize } else { first };
        let mut at = 0;
        for party in [first, 1 - first] {
            at += spare(rng, &[0, 0, 0, 1, 2, 7]);
            let length = needs[party][i] + spare(rng, &[0, 0, 0, 1, 6]);
            room.shares[party][i] = Share::new(at, length);
            at += length;
        }
        room.lengths[i] = (at + spare(rng, &[0, 0, 1, 3])).min(MOST[i] as u64);
    }
    for (length, most) in room.lengths.iter_mut().zip(MOST).skip(6) {
        *length = (*length + spare(rng, &[0, 0, 1, 5])).min(most as u64);
    }
    room
}

/// Of two shares the one that stands first, and the other.
fn in_order<'a>(a: &'a mut Share, b: &'a mut Share) -> [&'a mut Share; 2] {
    if (a.start, a.length) <= (b.start, b.length) {
        [a, b]
    } else {
        [b, a]
    }
}

/// The shares of one buffer of `n` places, in each way that 20 has a word for, on both sides of it.
fn spoil_share(rng: &mut Rng, n: u64, own: &mut Share, other: &mut Share) {
    match rng.below(20) {
        0..=4 => {
            // By one place, the first of the second share or the last of the first one.
            let [first, second] = in_order(own, other);
            if rng.percent(50) {
                first.length = second.start - first.start + 1;
            } else {
                second.start = (first.start + first.length).saturating_sub(1);
            }
        }
        5..=6 => {
            let [first, second] = in_order(own, other);
            first.length = second.start - first.start;
        }
        7 => *own = Share::new(other.start, other.length.min(1)),
        8 => *own = Share::new(other.start + other.length / 2, 0),
        9 => own.length = n.saturating_sub(own.start) + 1,
        10 => own.length = n.saturating_sub(own.start),
        11..=12 => *own = Share::new(u32::MAX as u64, rng.pick(&[0, 1, 2, 2])),
        // Modulo 2^32 it ends at its start or before it.
        13 => {
            own.start = own.start.max(1);
            own.length = (1 << 32) - own.start + rng.below(own.start + 1);
            own.length = own.length.min(u32::MAX as u64);
        }
        14..=15 => *own = Share::new(n, 0),
        16..=18 => *own = Share::new(n + 1, 0),
        _ => *own = Share::new(n, 1),
    }
}

/// Words or floats of the scratch a place short of what the job needs.
fn short_scratch(rng: &mut Rng, room: &mut Room) {
    let i = rng.between(6, 7) as usize;
    room.lengths[i] = room.needs[0][i].min(room.lengths[i]).saturating_sub(1);
}

/// One thing that makes a refusal of 9, 11 or 20, or none of them after all.
fn spoil_room(rng: &mut Rng, room: &mut Room) {
    let (i, party) = (rng.below(6) as usize, rng.below(2) as usize);
    let n = room.lengths[i];
    match rng.below(20) {
        0 => short_scratch(rng, room),
        1..=2 => room.lengths[i] = n.saturating_sub(1),
        // What a party that wants its counts first may ask: 11, unless it needs nothing.
        3..=4 => {
            for (share, &n) in room.shares[party].iter_mut().zip(&room.lengths) {
                *share = Share::new(rng.pick(&[0, n]), 0);
            }
        }
        5..=9 => room.shares[party][i].length = room.needs[party][i].saturating_sub(1),
        10 => room.shares[party] = room.shares[1 - party],
        11 => room.shares.iter_mut().for_each(|s| s[i] = Share::new(0, n)),
        _ => {
            let [first, second] = &mut room.shares;
            let (own, other) = match party {
                0 => (&mut first[i], &mut second[i]),
                _ => (&mut second[i], &mut first[i]),
            };
            spoil_share(rng, n, own, other);
        }
    }
}

// ── Records and job with something wrong ──────────────────────────────────────

/// A kind above 2, or bytes that are no whole records.
fn spoil_records(rng: &mut Rng, records: &mut Vec<u8>) {
    let count = (records.len() / RECORD) as u64;
    match rng.below(10) {
        0..=4 if count > 0 => {
            let at = RECORD * rng.below(count) as usize;
            records[at] = rng.pick(&[3, 255]);
        }
        0..=4 => records.extend([3, 0, 0, 0, 0, 0, 0, 0, 1]),
        5..=6 => drop(records.pop()),
        7 => records.push(rng.below(4) as u8),
        8 => records.truncate(rng.below(records.len() as u64 + 1) as usize),
        _ => *records = vec![1; rng.between(1, 10) as usize],
    }
}

/// A field that 01 refuses, bytes cut or flipped, or segments that a shared job may not have.
fn spoil_job(rng: &mut Rng, marked: &Marked) -> Vec<u8> {
    let mut job = marked.job.clone();
    let damaged = match rng.below(10) {
        0..=2 => {
            job.segments = marks(rng, &job);
            rng.percent(10)
        }
        3..=6 => {
            (0..rng.between(1, 2)).for_each(|_| bad_field(rng, &mut job));
            rng.percent(10)
        }
        _ => true,
    };
    let mut bytes = job.bytes();
    if damaged {
        damage(rng, &mut bytes);
    }
    bytes
}

// ── Requests ──────────────────────────────────────────────────────────────────

/// All that the calls of two parties have in common, and the records of each.
struct Scene {
    job: Vec<u8>,
    records: [Vec<u8>; 2],
    room: Room,
    /// How many tubes each party has.
    tubes: [u64; 2],
}

/// With nothing wrong.
fn plain(rng: &mut Rng, marked: &Marked) -> Scene {
    let needs = marked.needs(rng);
    Scene {
        job: marked.job.bytes(),
        records: marked.segments.clone().map(|s| record_bytes(&s)),
        room: deal(rng, needs),
        tubes: needs.map(|n| n[4] / 5),
    }
}

/// With something wrong in half of them or so: in the room, in a party's records, in the job, or in more than one of these.
fn scene(rng: &mut Rng) -> Scene {
    let marked = marked(rng);
    let mut scene = plain(rng, &marked);
    if rng.percent(55) {
        spoil_room(rng, &mut scene.room);
        match rng.below(10) {
            0 => short_scratch(rng, &mut scene.room),
            1..=3 => spoil_room(rng, &mut scene.room),
            _ => {}
        }
    }
    for records in &mut scene.records {
        if rng.percent(12) {
            spoil_records(rng, records);
        }
    }
    if rng.percent(16) {
        scene.job = spoil_job(rng, &marked);
    }
    scene
}

impl Scene {
    fn lengths(&self) -> [u32; 8] {
        self.room.lengths.map(|n| n as u32)
    }

    fn build(&self, party: usize) -> Request {
        let bytes = PartyBytes {
            shares: Some(self.room.shares),
            records: self.records[party].clone(),
            job: self.job.clone(),
        };
        Request {
            call: BUILD_SHARE,
            lengths: self.lengths(),
            k: party as u32,
            bytes: bytes.encode(),
        }
    }

    fn plan(&self, rng: &mut Rng, party: usize) -> Request {
        let mut lengths = self.lengths();
        // A plan is lent no output buffer: whatever is said of them changes nothing.
        lengths[..6].fill(if rng.percent(90) { 0 } else { 3 });
        let tubes = self.tubes[party];
        let k = match rng.below(8) {
            0 => tubes,
            1 => tubes.saturating_sub(1),
            2 => rng.pick(&[tubes + 1, u32::MAX as u64]),
            _ => rng.below(tubes + 1),
        };
        let bytes = PartyBytes {
            shares: None,
            records: self.records[party].clone(),
            job: self.job.clone(),
        };
        Request {
            call: PLAN_RECORDS,
            lengths,
            k: k as u32,
            bytes: bytes.encode(),
        }
    }
}

/// One of three builds: a party's, the other's with its own records, and the first one's again.
fn in_turn(rng: &mut Rng, turn: u64) -> Request {
    let scene = scene(rng);
    let first = rng.below(2) as usize;
    scene.build(if turn == 1 { 1 - first } else { first })
}

/// Very many records, in the order in which they take turns: how many bytes, and whether the last whole one has a kind above 2.
const MANY: [(usize, bool); 6] = [
    (RECORD * (MAX_RECORDS + 1), false),
    (RECORD * MAX_RECORDS, false),
    // More than 65,535 bytes.
    (RECORD * 7_282, false),
    (RECORD * MAX_RECORDS, true),
    (RECORD * (MAX_RECORDS + 1), true),
    (RECORD * MAX_RECORDS + 1, false),
];

/// Records most of which have no atoms, so that few tubes come of them, on a straight chain with a few marks and nothing else wrong.
fn with_many(rng: &mut Rng, turn: u64) -> Request {
    let (bytes, bad) = MANY[turn as usize % MANY.len()];
    let mut job = straight(rng.between(2, 6) as usize);
    job.segments = marks(rng, &job);
    let marked = with_marks(rng, job);
    let mut scene = plain(rng, &marked);
    let party = rng.below(2) as usize;
    // Of kind 1, from 2 to 1.
    let empty = [1, 0, 0, 0, 2, 0, 0, 0, 1];
    let missing = (bytes - scene.records[party].len().min(bytes)).div_ceil(RECORD);
    let records = &mut scene.records[party];
    records.splice(0..0, empty.repeat(missing));
    records.resize(bytes, 0);
    if bad {
        records[bytes - RECORD] = 3;
    }
    if rng.percent(75) {
        scene.build(party)
    } else {
        scene.plan(rng, party)
    }
}

/// A request that no program has to take, or the last that it has to.
fn passed_over(rng: &mut Rng, mut r: Request) -> Request {
    let fixed = if r.call == BUILD_SHARE { 100 } else { 4 };
    let rest = (r.bytes.len() - fixed) as u32;
    let m = fixed - 4..fixed;
    match rng.below(10) {
        0..=1 if r.call == BUILD_SHARE => r.k = rng.pick(&[2, 3, u32::MAX]),
        0..=2 => r.bytes.truncate(rng.pick(&[0, 3, fixed / 2, fixed - 1])),
        3..=4 => r.bytes[m].copy_from_slice(&(rest + 1).to_be_bytes()),
        // No byte is left for the job: 1, which no program passes over.
        5 => r.bytes[m].copy_from_slice(&rest.to_be_bytes()),
        6 => r.bytes[m].copy_from_slice(&rng.pick(&[u32::MAX, 1 << 31]).to_be_bytes()),
        7 => r
            .bytes
            .truncate(fixed + rng.below(rest as u64 + 1) as usize),
        8 => r.bytes.resize(MOST_BYTES + rng.below(2) as usize, 0),
        _ => {
            let one = rng.below(8) as usize;
            r.lengths[one] = rng.pick(&[MOST[one], MOST[one] + 1, u32::MAX]);
        }
    }
    r
}

/// One party's build of this job with its segments, or with others, and nothing wrong.
pub fn build_of(rng: &mut Rng, job: RawJob) -> Request {
    let marked = with_marks(rng, job);
    let scene = plain(rng, &marked);
    scene.build(rng.below(2) as usize)
}

/// Request `index` of `seed`. Those of a run are made from its first index, so that they share all but the caller and its records.
pub fn request(seed: u64, index: u64) -> Request {
    let turn = (index % PERIOD + RUN).checked_sub(PERIOD);
    if let Some(turn) = turn {
        return in_turn(&mut Rng::new(seed, index - turn), turn);
    }
    let rng = &mut Rng::new(seed, index);
    if index % SELDOM == SELDOM / 2 {
        return with_many(rng, index / SELDOM);
    }
    let scene = scene(rng);
    let party = rng.below(2) as usize;
    let r = if rng.percent(55) {
        scene.build(party)
    } else {
        scene.plan(rng, party)
    };
    if rng.below(40) == 0 {
        return passed_over(rng, r);
    }
    r
}
