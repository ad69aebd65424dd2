//! 02 §5 read plainly: two annotators on one structure. 'Atoms, residues and chains are one shared job with S = 0; each party has its own segment
//! records and a share of every output buffer.' A party's call is a build of the job with its records put in, in the places of its share, as if
//! there were no others.

use std::ops::Range;

use crate::{
    calls::{self, Buffers, Counts, build, check_scratch},
    job::{Job, Refusal, decode, fix_length, sizes},
    wrong::{Mutation, wrong},
};

/// 'the records are not whole or above 65,535': as many as S can say.
pub const MAX_RECORDS: usize = 65_535;
/// The bytes of a segment record (01).
pub const RECORD: usize = 9;

/// A start and a length, in places, of one buffer. It need not start at a multiple of 3, 5 or 6.
#[derive(Clone, Copy, Debug, Default, PartialEq, Eq)]
pub struct Share {
    pub start: u64,
    pub length: u64,
}

/// A party's share of positions, normals, tags, triangles, tubes and boxes.
pub type Shares = [Share; 6];

impl Share {
    pub fn new(start: u64, length: u64) -> Self {
        Self { start, length }
    }

    /// The place behind the last one. It does not wrap.
    fn end(self) -> u128 {
        if wrong(Mutation::PartyEndWraps) {
            return (self.start as u128 + self.length as u128) % (1 << 32);
        }
        self.start as u128 + self.length as u128
    }

    /// Whether it leaves a buffer of `n` places. An empty share has no place that could leave it, but its start must be one of 0 to `n`.
    fn leaves(self, n: u64) -> bool {
        if wrong(Mutation::PartyEmptyPastEnd) && self.length == 0 {
            return false;
        }
        self.end() > n as u128
    }

    /// Whether some place is in both. None is in an empty share, and none in two that touch.
    fn overlaps(self, other: Share) -> bool {
        if wrong(Mutation::PartyOverlapUnasked) {
            return false;
        }
        if wrong(Mutation::PartyTouchingRefused) && self.length > 0 && other.length > 0 {
            let (a, b) = (self.start as u128, other.start as u128);
            return a <= other.end() && b <= self.end();
        }
        let places = self.length > 0 && other.length > 0 || wrong(Mutation::PartyEmptyOverlaps);
        places && (self.start as u128) < other.end() && (other.start as u128) < self.end()
    }

    /// Its places in a buffer of `n`. Only a mistake lets one that leaves the buffer come here; it is cut then.
    fn places(self, n: usize) -> Range<usize> {
        let start = self.start.min(n as u64);
        let length = self.length.min(n as u64 - start);
        start as usize..(start + length) as usize
    }
}

/// 20 for one buffer of `n` places: 'shares overlap or leave a buffer', whoever calls.
fn bad(n: u64, mine: Share, other: Share) -> bool {
    if wrong(Mutation::PartyOtherUnchecked) {
        return mine.leaves(n);
    }
    if wrong(Mutation::PartyOwnUnchecked) {
        return other.leaves(n) || mine.overlaps(other);
    }
    if wrong(Mutation::PartyEmptyRefused) && mine.length == 0 {
        return true;
    }
    mine.leaves(n) || other.leaves(n) || mine.overlaps(other)
}

/// Check 20, over the six buffers.
fn check_shares(mine: &Shares, other: &Shares, b: &Buffers) -> Result<(), Refusal> {
    let asked = if wrong(Mutation::PartyBoxesUnasked) {
        5
    } else {
        6
    };
    let mut lengths = b.outputs();
    if wrong(Mutation::PartyNormalsInPositions) {
        lengths[1] = lengths[0];
    }
    let refused = (0..asked).find(|&i| bad(lengths[i], mine[i], other[i]));
    let odd = wrong(Mutation::PartyOddRefused) && !mine[0].start.is_multiple_of(3);
    match refused.or(odd.then_some(0)) {
        Some(i) if wrong(Mutation::PartyTwentyCarries) => Err(Refusal::new(20, i as u32)),
        Some(_) => Err(Refusal::new(20, 0)),
        None => Ok(()),
    }
}

/// 'Refusals: 4 also if .. the records are not whole or above 65,535'. Records are counted, as S counts them.
fn check_records(records: &[u8]) -> Result<(), Refusal> {
    let whole = records.len().is_multiple_of(RECORD) || wrong(Mutation::PartyPartTaken);
    let count = records.len() / RECORD;
    let many = match () {
        _ if wrong(Mutation::PartyManyTaken) || wrong(Mutation::PartyCountWraps) => {
            count > MAX_RECORDS + 1
        }
        _ if wrong(Mutation::PartyLimitExclusive) => count >= MAX_RECORDS,
        _ if wrong(Mutation::PartyLimitOfBytes) => records.len() > MAX_RECORDS,
        _ => count > MAX_RECORDS,
    };
    if whole && !many {
        Ok(())
    } else {
        Err(Refusal::new(4, 0))
    }
}

/// Checks 1 to 4, and the bytes of 'the job with those records'.
fn join(bytes: &[u8], records: &[u8]) -> Result<Vec<u8>, Refusal> {
    if wrong(Mutation::PartyFourFirst) {
        check_records(records)?;
    }
    let [c, _, s, _] = sizes(bytes)?;
    // 'one shared job with S = 0'; 'Refusals: 4 also if S is not 0'.
    if s != 0 && !wrong(Mutation::PartySegmentsTaken) {
        return Err(Refusal::new(4, 0));
    }
    if wrong(Mutation::PartyFourAfterEight) {
        decode(bytes)?;
    }
    check_records(records)?;
    let records = mistaken(records);
    let mut at = 13 + c as usize + RECORD * s as usize;
    if wrong(Mutation::PartyRecordsBehindAtoms) {
        at = bytes.len();
    }
    let mut joined = [&bytes[..at], &records, &bytes[at..]].concat();
    let count = s as usize + records.len() / RECORD;
    joined[9..11].copy_from_slice(&(count as u16).to_be_bytes());
    fix_length(&mut joined);
    Ok(joined)
}

/// The records as they are but for a mistake in them.
fn mistaken(records: &[u8]) -> Vec<u8> {
    let mut taken = records.to_vec();
    let count = taken.len() / RECORD;
    if wrong(Mutation::PartyCountWraps) && count > MAX_RECORDS {
        taken.clear();
    }
    let kept = match () {
        _ if wrong(Mutation::PartyLastLost) => count.saturating_sub(1),
        _ => count.min(MAX_RECORDS),
    };
    taken.truncate(RECORD * kept);
    let first = taken.first().copied();
    for record in taken.chunks_mut(RECORD) {
        if wrong(Mutation::PartyKindOfFirst) {
            record[0] = first.unwrap_or(0);
        }
        if wrong(Mutation::PartyKindsUnasked) {
            record[0] = record[0].min(2);
        }
    }
    taken
}

/// Checks 1 to 8: the joined bytes, and what they say. 6 counts in the party's records, which are all the segments there are.
fn checked(bytes: &[u8], records: &[u8]) -> Result<(Vec<u8>, Job), Refusal> {
    let joined = join(bytes, records)?;
    if wrong(Mutation::PartySixAfterEight) {
        decode(bytes)?;
    }
    let job = decode(&joined)?;
    Ok((joined, job))
}

/// Checks 1 to 8, then 20: 'after 8 and before 9'. The joined bytes; what follows is 01's, on them and on the share.
fn check(
    bytes: &[u8],
    records: &[u8],
    mine: &Shares,
    other: &Shares,
    b: &mut Buffers,
) -> Result<Vec<u8>, Refusal> {
    let shares = check_shares(mine, other, b);
    if wrong(Mutation::PartyTwentyBeforeFive) {
        join(bytes, records)?;
        shares?;
    }
    let (joined, job) = checked(bytes, records)?;
    if wrong(Mutation::PartyTwentyAfterNine) {
        check_scratch(&job, &b.words, &b.floats)?;
    }
    if wrong(Mutation::PartyTwentyAfterEleven) {
        build(&joined, &mut parts(mine, b))?;
    }
    if wrong(Mutation::PartyTwentyClears) && shares.is_err() {
        b.words.fill(0);
    }
    shares?;
    Ok(joined)
}

/// The places of a share as buffers of their own, and the scratch.
fn parts(shares: &Shares, b: &Buffers) -> Buffers {
    Buffers {
        positions: b.positions[shares[0].places(b.positions.len())].to_vec(),
        normals: b.normals[shares[1].places(b.normals.len())].to_vec(),
        tags: b.tags[shares[2].places(b.tags.len())].to_vec(),
        triangles: b.triangles[shares[3].places(b.triangles.len())].to_vec(),
        tubes: b.tubes[shares[4].places(b.tubes.len())].to_vec(),
        boxes: b.boxes[shares[5].places(b.boxes.len())].to_vec(),
        words: b.words.clone(),
        floats: b.floats.clone(),
    }
}

fn put_part<T: Copy>(buffer: &mut [T], share: Share, part: &[T]) {
    let places = share.places(buffer.len());
    buffer[places].copy_from_slice(part);
}

/// What `parts` took, put back where it was.
fn put_back(shares: &Shares, own: Buffers, b: &mut Buffers) {
    put_part(&mut b.positions, shares[0], &own.positions);
    put_part(&mut b.normals, shares[1], &own.normals);
    put_part(&mut b.tags, shares[2], &own.tags);
    put_part(&mut b.triangles, shares[3], &own.triangles);
    put_part(&mut b.tubes, shares[4], &own.tubes);
    put_part(&mut b.boxes, shares[5], &own.boxes);
    (b.words, b.floats) = (own.words, own.floats);
}

/// The share that is built in: the party's own, but for a mistake.
fn placed(mine: &Shares, other: &Shares, b: &Buffers) -> Shares {
    let mut shares = *mine;
    if wrong(Mutation::PartySharesExchanged) {
        shares = *other;
    }
    if wrong(Mutation::PartyWrittenAtZero) {
        shares.iter_mut().for_each(|s| s.start = 0);
    }
    if wrong(Mutation::PartyNormalsAsPositions) {
        shares[1].start = shares[0].start;
    }
    if wrong(Mutation::PartyNormalsAsLong) {
        shares[1].length = shares[0].length;
    }
    if wrong(Mutation::PartyBoxesAsTubes) {
        shares[5].start = shares[4].start;
    }
    if wrong(Mutation::PartyWholeRoom) {
        for (share, n) in shares.iter_mut().zip(b.outputs()) {
            share.length = n - share.start;
        }
    }
    shares
}

/// Mistakes in what stands in the share after a mesh. A share of tags counts vertices, so that its start is that of the first vertex.
fn spoil(mine: &Shares, own: &mut Buffers, c: Counts) {
    let (v, t, k) = (c.v as usize, c.t as usize, c.k as usize);
    let first = mine[2].start as u32;
    if wrong(Mutation::PartyCornersFromStart) {
        own.triangles[..3 * t].iter_mut().for_each(|i| *i += first);
    }
    if wrong(Mutation::PartyStartsFromStart) {
        for tube in own.tubes[..5 * k].chunks_mut(5) {
            tube[3] += first;
            tube[4] += mine[3].start as u32 / 3;
        }
    }
    if wrong(Mutation::PartyRestCleared) {
        own.positions[3 * v..].fill(0.0);
        own.tags[v..].fill(0);
    }
}

/// 'A call gets the job, both shares and one party's records, and answers as the job with those records would in that share, corners and starts counted
/// from 0 there.' A refusal alters no place of the six buffers; 11 is on the lengths of the share, and carries the party's own K, V, T.
pub fn build_share(
    bytes: &[u8],
    records: &[u8],
    mine: &Shares,
    other: &Shares,
    b: &mut Buffers,
) -> Result<Counts, Refusal> {
    let joined = check(bytes, records, mine, other, b)?;
    let shares = placed(mine, other, b);
    let mut own = parts(&shares, b);
    let answer = build(&joined, &mut own);
    if let Ok(counts) = answer {
        spoil(mine, &mut own, counts);
    }
    if wrong(Mutation::PartyScratchLeft) {
        (own.words, own.floats) = (b.words.clone(), b.floats.clone());
    }
    put_back(&shares, own, b);
    if wrong(Mutation::PartyOtherCleared) && answer.is_ok() {
        let places = other[2].places(b.tags.len());
        b.tags[places].fill(0);
    }
    answer
}

/// 'answers as the job with those records would': a plan of them, for whoever deals out the shares. It is given none, so that 20 is not among its
/// refusals.
pub fn plan_records(
    bytes: &[u8],
    records: &[u8],
    k: u32,
    words: &mut [u32],
    floats: &mut [f32],
) -> Result<(Counts, [u32; 5]), Refusal> {
    let (joined, _) = checked(bytes, records)?;
    if wrong(Mutation::PartyPlanWithout) {
        return calls::plan(bytes, k, words, floats);
    }
    calls::plan(&joined, k, words, floats)
}
