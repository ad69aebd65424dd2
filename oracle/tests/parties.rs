//! 02 §5, sentence by sentence: what each reading settles, on the smallest request that shows it; sequences of both parties on the same buffers; and
//! what the requests of the kind `parties` hold.
// A buffer's number goes through several lists at once.
#![allow(clippy::needless_range_loop)]

mod common;

use common::build_in;
use oracle::{
    calls::{Buffers, Counts, list, needs},
    cases::{at_vertex_limit, straight, two_residues},
    generator::Kind,
    job::{RawJob, RawSegment, Refusal, decode, fix_length, record_bytes},
    jobs::{segment, with_vertices},
    parties::{MAX_RECORDS, Share, Shares, build_share, plan_records},
    protocol::{
        BUILD_SHARE, MOST, MOST_BYTES, PLAN_RECORDS, PartyBytes, Request, TOO_LONG, answer,
        buffers_before, encode_words,
    },
};

// ── Two laboratories on six residues ──────────────────────────────────────────

/// Six residues 4 apart in one chain, serials 1 to 6, S = 0.
fn shared() -> Vec<u8> {
    straight(6).bytes()
}

/// 01's helix over residues 2 and 3: three tubes, V 350, T 688.
fn helix() -> Vec<u8> {
    record_bytes(&[segment(1, 3, 4)])
}

/// Another laboratory's sheet over residues 0 to 2: with the coil behind it two tubes.
fn sheet() -> Vec<u8> {
    record_bytes(&[segment(2, 1, 3)])
}

/// The job with those records, written anew.
fn with(job: &[u8], records: &[u8]) -> Vec<u8> {
    let mut raw = RawJob::of(job).expect("a job");
    let segments = records.chunks(9).map(|r| {
        let word = |i: usize| u32::from_be_bytes(r[i..i + 4].try_into().unwrap());
        segment(r[0], word(1), word(5))
    });
    raw.segments = segments.collect::<Vec<RawSegment>>();
    raw.bytes()
}

/// The six lengths that a party needs.
fn needed(job: &[u8], records: &[u8]) -> [u64; 6] {
    let tubes = list(&decode(&with(job, records)).expect("an accepted job"));
    let all = needs(tubes.k, tubes.v, tubes.t, 0);
    std::array::from_fn(|i| all[i])
}

/// A call of one party: the job, its records, its shares and the other's.
#[derive(Clone)]
struct Call {
    job: Vec<u8>,
    records: Vec<u8>,
    mine: Shares,
    other: Shares,
}

impl Call {
    fn run(&self, b: &mut Buffers) -> Result<Counts, Refusal> {
        build_share(&self.job, &self.records, &self.mine, &self.other, b)
    }

    /// In buffers of these lengths as the stream has them before a call.
    fn alone(&self, lengths: [u32; 8]) -> (Result<Counts, Refusal>, Buffers) {
        let mut b = buffers_before(lengths);
        let answer = self.run(&mut b);
        (answer, b)
    }
}

/// Party 0's helix and party 1's sheet, party 0's shares first, exactly as needed and touching, and the lengths of buffers that they fill.
fn laboratories() -> ([Call; 2], [u32; 8]) {
    let job = shared();
    let [a, b] = [helix(), sheet()].map(|records| needed(&job, &records));
    let first: Shares = std::array::from_fn(|i| Share::new(0, a[i]));
    let second: Shares = std::array::from_fn(|i| Share::new(a[i], b[i]));
    let mut lengths = [0, 0, 0, 0, 0, 0, 8 * 6, 32 * 6];
    for i in 0..6 {
        lengths[i] = (a[i] + b[i]) as u32;
    }
    let call = |records, mine, other| Call {
        job: job.clone(),
        records,
        mine,
        other,
    };
    let calls = [call(helix(), first, second), call(sheet(), second, first)];
    (calls, lengths)
}

/// The words of the six output buffers, floats by their bits.
fn words(b: &Buffers) -> [Vec<u32>; 6] {
    let bits = |floats: &[f32]| floats.iter().map(|f| f.to_bits()).collect();
    [
        bits(&b.positions),
        bits(&b.normals),
        b.tags.clone(),
        b.triangles.clone(),
        b.tubes.clone(),
        bits(&b.boxes),
    ]
}

/// The words of a share, which does not leave its buffers.
fn part(b: &Buffers, shares: &Shares) -> [Vec<u32>; 6] {
    let all = words(b);
    std::array::from_fn(|i| {
        let (start, length) = (shares[i].start as usize, shares[i].length as usize);
        all[i][start..start + length].to_vec()
    })
}

/// The words of the six buffers that stand in none of these shares, with their places.
fn outside(b: &Buffers, shares: &[&Shares]) -> Vec<(usize, usize, u32)> {
    let mut out = Vec::new();
    for (i, buffer) in words(b).iter().enumerate() {
        for (place, &word) in buffer.iter().enumerate() {
            let within = |s: &&Shares| {
                let start = s[i].start;
                place as u64 >= start && (place as u64) < start + s[i].length
            };
            if !shares.iter().any(within) {
                out.push((i, place, word));
            }
        }
    }
    out
}

fn scratch(b: &Buffers) -> (Vec<u32>, Vec<u32>) {
    let floats = b.floats.iter().map(|f| f.to_bits());
    (b.words.clone(), floats.collect())
}

// ── The answer in the share ───────────────────────────────────────────────────

/// 'answers as the job with those records would in that share, corners and starts counted from 0 there'.
#[test]
fn a_party_is_answered_as_the_job_with_its_records_in_its_share() {
    let (calls, lengths) = laboratories();
    for call in &calls {
        let mut own = lengths;
        (0..6).for_each(|i| own[i] = call.mine[i].length as u32);
        let (expected, built) = build_in(&with(&call.job, &call.records), own);
        let (answer, b) = call.alone(lengths);
        assert_eq!(answer, expected);
        assert!(answer.is_ok());
        assert_eq!(part(&b, &call.mine), words(&built));
        assert_eq!(scratch(&b), scratch(&built));
        // Corners and starts from 0, wherever the share begins.
        let [_, _, _, triangles, tubes, _] = part(&b, &call.mine);
        assert_eq!(triangles[..3], [8, 1, 0]);
        assert_eq!(tubes[3..5], [0, 0]);
        // All that stands outside is as it was.
        let before = buffers_before(lengths);
        assert_eq!(outside(&b, &[&call.mine]), outside(&before, &[&call.mine]));
    }
    let counts = calls.map(|c| c.alone(lengths).0.unwrap());
    assert_eq!(
        counts[0],
        Counts {
            k: 3,
            v: 350,
            t: 688
        }
    );
    assert_eq!(counts[1].k, 2);
}

/// 01: 'Places past what a call writes stay as they were', those of the share too. No share need start at a multiple of 3, 5 or 6 (reading 1).
#[test]
fn a_longer_share_at_an_odd_place() {
    let ([call, _], _) = laboratories();
    let mut longer = call.clone();
    let mut lengths = [0, 0, 0, 0, 0, 0, 8 * 6 + 1, 32 * 6 + 2];
    for i in 0..6 {
        longer.mine[i] = Share::new(7 + i as u64, call.mine[i].length + 4);
        longer.other[i] = Share::default();
        lengths[i] = (call.mine[i].length + 30) as u32;
    }
    let (answer, b) = longer.alone(lengths);
    let (expected, built) = build_in(&with(&call.job, &call.records), lengths);
    assert_eq!(answer, expected);
    let (own, built) = (part(&b, &longer.mine), words(&built));
    let kept = part(&buffers_before(lengths), &longer.mine);
    for i in 0..6 {
        let (written, spare) = own[i].split_at(own[i].len() - 4);
        assert_eq!(written, &built[i][..written.len()]);
        assert_eq!(spare, &kept[i][written.len()..]);
    }
    // 'the first 8R and the first 32R of them are 0 (plus zero); all others .. are unchanged.'
    assert!(b.words[..48].iter().all(|&w| w == 0) && b.words[48] == 0xC0DE_0030);
    assert!(b.floats[..192].iter().all(|f| f.to_bits() == 0));
    assert_eq!(b.floats[192].to_bits(), 0x4000_00C0);
}

/// 'Demands 2 and 3 are read so, where buffers no shorter are shares no shorter that pass 20.'
#[test]
fn shares_no_shorter_give_the_same() {
    let (calls, lengths) = laboratories();
    for call in &calls {
        let (expected, b) = call.alone(lengths);
        let mut wider = call.clone();
        let mut more = lengths.map(|n| n + 9);
        for i in 0..6 {
            wider.mine[i] = Share::new(2, call.mine[i].length + 5);
            wider.other[i] = Share::new(call.mine[i].length + 8, 1);
            more[i] = (call.mine[i].length + 9) as u32;
        }
        let (answer, longer) = wider.alone(more);
        assert_eq!(answer, expected);
        let (short, long) = (part(&b, &call.mine), part(&longer, &wider.mine));
        assert!((0..6).all(|i| long[i].starts_with(&short[i])));
    }
}

/// Records none: the coils of the shared job alone. Two parties with the same records have the same mesh.
#[test]
fn parties_with_no_records_and_with_the_same() {
    let (mut calls, mut lengths) = laboratories();
    let six = needed(&shared(), &[]);
    for i in 0..6 {
        lengths[i] = 2 * six[i] as u32;
        let [a, b] = [Share::new(six[i], six[i]), Share::new(0, six[i])];
        (calls[0].mine[i], calls[0].other[i]) = (a, b);
        (calls[1].mine[i], calls[1].other[i]) = (b, a);
    }
    calls.iter_mut().for_each(|c| c.records.clear());
    let mut b = buffers_before(lengths);
    let answers = calls.clone().map(|c| c.run(&mut b).unwrap());
    assert_eq!(
        answers,
        [Counts {
            k: 1,
            v: 330,
            t: 656
        }; 2]
    );
    assert_eq!(part(&b, &calls[0].mine), part(&b, &calls[1].mine));
}

// ── Isolation ─────────────────────────────────────────────────────────────────

/// Runs one call of a sequence on the buffers that it shares with all the others. 'one party's answer, refusal, counts and written places are the same
/// for any calls of the other given those same shares, which change nothing in its share.'
fn step(call: &Call, lengths: [u32; 8], b: &mut Buffers) {
    let before = b.clone();
    let answer = call.run(b);
    let (expected, fresh) = call.alone(lengths);
    assert_eq!(answer, expected);
    assert_eq!(b.outputs(), before.outputs());
    if answer.is_err() {
        assert_eq!(words(b), words(&before), "a refusal alters no place");
        return;
    }
    let shares = [&call.mine, &call.other];
    assert_eq!(part(b, &call.other), part(&before, &call.other));
    assert_eq!(outside(b, &shares), outside(&before, &shares));
    let Counts { k, v, t } = answer.unwrap();
    let written = needs(k as u64, v as u64, t as u64, 0);
    let (own, fresh) = (part(b, &call.mine), part(&fresh, &call.mine));
    let old = part(&before, &call.mine);
    for i in 0..6 {
        let n = written[i] as usize;
        assert_eq!(own[i][..n], fresh[i][..n]);
        assert_eq!(own[i][n..], old[i][n..]);
    }
}

/// A, B, A, with all that the other may call in between (reading 8): its mesh, other records, another job, and every refusal.
#[test]
fn a_sequence_of_both_parties_on_the_same_buffers() {
    let ([a, b], lengths) = laboratories();
    let with_records = |records: Vec<u8>| Call {
        records,
        ..b.clone()
    };
    let with_job = |job: Vec<u8>| Call { job, ..b.clone() };
    let mut version = shared();
    version[4] = 2;
    let others = [
        b.clone(),
        with_records(Vec::new()),
        with_records(helix()),
        with_records(record_bytes(&[segment(3, 1, 2)])),
        with_records(vec![0; 8]),
        with_job(two_residues().bytes()),
        with_job(version),
        with_job(Vec::new()),
        with_job(straight(7).bytes()),
    ];
    let mut buffers = buffers_before(lengths);
    step(&a, lengths, &mut buffers);
    let mesh = part(&buffers, &a.mine);
    for other in &others {
        step(other, lengths, &mut buffers);
        assert_eq!(part(&buffers, &a.mine), mesh);
        step(&a, lengths, &mut buffers);
        assert_eq!(part(&buffers, &a.mine), mesh);
    }
    // And the other way round: what party 1 has built stays while party 0 is refused, and while it builds.
    step(&b, lengths, &mut buffers);
    let mesh = part(&buffers, &b.mine);
    step(&a, lengths, &mut buffers);
    assert_eq!(part(&buffers, &b.mine), mesh);
}

/// The same on what the generator makes: each run of it, and two more calls, on the same buffers.
#[test]
fn generated_sequences_on_the_same_buffers() {
    let mut meshes = [0; 3];
    for run in 0..400 {
        let requests = [5, 6, 7].map(|i| Kind::Parties.request(SEED, 8 * run + i));
        assert_eq!(requests[0], requests[2]);
        let lengths = requests[0].lengths;
        let [a, b, _] = requests.map(|r| {
            let party = PartyBytes::of(&r).expect("a party's bytes");
            let [first, second] = party.shares.expect("shares");
            let own = r.k == 0;
            Call {
                job: party.job,
                records: party.records,
                mine: if own { first } else { second },
                other: if own { second } else { first },
            }
        });
        let built = [&a, &b].map(|c| c.alone(lengths).0.is_ok() as usize);
        meshes[built[0] + built[1]] += 1;
        let mut buffers = buffers_before(lengths);
        for call in [&a, &b, &a, &b, &b, &a] {
            step(call, lengths, &mut buffers);
        }
    }
    // Neither, one and both of them have a mesh.
    assert!(meshes.iter().all(|&n| n > 40), "{meshes:?}");
}

// ── Refusal 4 ─────────────────────────────────────────────────────────────────

/// The answer to a build with six empty shares, and that to a plan, which differ by 11 alone.
fn refused(job: &[u8], records: &[u8]) -> Option<(u32, u32)> {
    let r = decode(&with_head(job)).map_or(0, |j| j.residues.len() as u32);
    let none = [Share::default(); 6];
    let mut b = buffers_before([0, 0, 0, 0, 0, 0, 8 * r, 32 * r]);
    let built = build_share(job, records, &none, &none, &mut b);
    let planned = plan_records(job, records, 0, &mut b.words, &mut b.floats);
    let told = |r: Refusal| (r.number, r.carried[0]);
    match built {
        Err(r) if r.number != 11 => {
            assert_eq!(planned, Err(r));
            Some(told(r))
        }
        _ => {
            assert!(planned.is_ok());
            None
        }
    }
}

/// A job's bytes without their faults, as far as its number of residues goes.
fn with_head(job: &[u8]) -> Vec<u8> {
    let residues = job
        .get(7..9)
        .map_or(0, |r| u16::from_be_bytes([r[0], r[1]]));
    let plain = RawJob {
        residues: residues.min(16_384),
        ..RawJob::default()
    };
    plain.bytes()
}

/// 'Refusals: 4 also if S is not 0'.
#[test]
fn a_shared_job_has_no_segments() {
    let job = with(&shared(), &helix());
    assert_eq!(refused(&job, &[]), Some((4, 0)));
    assert_eq!(refused(&job, &helix()), Some((4, 0)));
    assert_eq!(refused(&shared(), &helix()), None);
    // A size that differs from the counts is 4 as before.
    let mut longer = shared();
    longer.push(0);
    fix_length(&mut longer);
    assert_eq!(refused(&longer, &helix()), Some((4, 0)));
}

/// 'or the records are not whole'.
#[test]
fn records_are_whole() {
    let two = [helix(), sheet()].concat();
    for length in 0..=18 {
        let expected = (length % 9 != 0).then_some((4, 0));
        assert_eq!(refused(&shared(), &two[..length]), expected, "{length}");
    }
}

/// 'or above 65,535' counts records, as S does (reading 5). Records from 2 to 1 have no atoms.
#[test]
fn records_are_counted_and_not_their_bytes() {
    let empty = |n: usize| record_bytes(&vec![segment(1, 2, 1); n]);
    let job = two_residues().bytes();
    assert_eq!(empty(7_282).len(), 65_538);
    assert_eq!(refused(&job, &empty(7_282)), None);
    assert_eq!(refused(&job, &empty(MAX_RECORDS)), None);
    assert_eq!(empty(65_536).len(), 589_824);
    assert_eq!(refused(&job, &empty(65_536)), Some((4, 0)));
    assert_eq!(refused(&job, &empty(131_072)), Some((4, 0)));
    // The last of them counts too.
    let mut last = empty(MAX_RECORDS);
    let at = last.len() - 9;
    last[at] = 3;
    assert_eq!(refused(&job, &last), Some((6, 65_534)));
}

/// Reading 6: 1, 2 and 3 come before 4, whatever is wrong with S or with the records; 5 to 8 come after it.
#[test]
fn four_in_its_place() {
    let mut job = straight(6);
    job.visible = vec![1; 256];
    job.segments.push(segment(1, 3, 4));
    assert_eq!(refused(&job.bytes(), &[]), Some((3, 0)));
    let mut job = shared();
    job[4] = 3;
    assert_eq!(refused(&job, &[0]), Some((2, 3)));
    assert_eq!(refused(&[], &[0]), Some((1, 0)));
    let mut job = shared();
    job[3] ^= 1;
    assert_eq!(refused(&job, &[0]), Some((1, 0)));
    let faults: [fn(&mut RawJob); 3] = [
        |j| j.visible[0] = 2,
        |j| j.atoms[5].role = 3,
        |j| j.atoms[4].xyz[2] = 1e9,
    ];
    for (fault, told) in faults.into_iter().zip([(5, 0), (7, 5), (8, 4)]) {
        let mut job = straight(6);
        fault(&mut job);
        assert_eq!(refused(&job.bytes(), &helix()), Some(told));
        assert_eq!(refused(&job.bytes(), &[0]), Some((4, 0)));
        job.segments.push(segment(1, 3, 4));
        assert_eq!(refused(&job.bytes(), &[]), Some((4, 0)));
    }
}

/// 6 counts in the party's records, after 5 and before 7 and 8 (reading 7).
#[test]
fn six_counts_in_the_records() {
    let records = record_bytes(&[segment(1, 3, 4), segment(2, 1, 2), segment(3, 1, 2)]);
    assert_eq!(refused(&shared(), &records), Some((6, 2)));
    let mut job = straight(6);
    job.atoms[0].role = 3;
    assert_eq!(refused(&job.bytes(), &records), Some((6, 2)));
    job.visible[0] = 2;
    assert_eq!(refused(&job.bytes(), &records), Some((5, 0)));
}

// ── Refusal 20 ────────────────────────────────────────────────────────────────

/// Whether one buffer of `n` places with these shares gives 20, be it any of the six, and whichever party calls. The job needs nothing, so that there is
/// no other refusal.
fn twenty(n: u32, a: (u64, u64), b: (u64, u64)) -> bool {
    let job = RawJob {
        residues: 1,
        ..RawJob::default()
    };
    let mut found = Vec::new();
    for i in 0..6 {
        let [mut first, mut second] = [[Share::default(); 6]; 2];
        (first[i], second[i]) = (Share::new(a.0, a.1), Share::new(b.0, b.1));
        let mut lengths = [0, 0, 0, 0, 0, 0, 8, 32];
        lengths[i] = n;
        for (mine, other) in [(first, second), (second, first)] {
            let mut b = buffers_before(lengths);
            let answer = build_share(&job.bytes(), &[], &mine, &other, &mut b);
            let refused = answer == Err(Refusal::new(20, 0));
            assert!(refused || answer == Ok(Counts { k: 0, v: 0, t: 0 }));
            assert_eq!(words(&b), words(&buffers_before(lengths)));
            // 20 leaves the scratch as it was.
            let kept = scratch(&b) == scratch(&buffers_before(lengths));
            assert_eq!(kept, refused);
            found.push(refused);
        }
    }
    assert!(found.iter().all(|&f| f == found[0]), "{found:?}");
    found[0]
}

/// '20 shares overlap'. Touching ones do not (reading 3).
#[test]
fn shares_that_overlap_and_shares_that_touch() {
    assert!(!twenty(8, (0, 4), (4, 4)));
    assert!(twenty(8, (0, 5), (4, 4)));
    assert!(twenty(8, (0, 4), (3, 4)));
    assert!(!twenty(8, (0, 3), (4, 4)));
    // One inside the other, at its front and at its end; the same place; the same share.
    assert!(twenty(8, (0, 8), (3, 1)));
    assert!(twenty(8, (2, 4), (2, 1)) && twenty(8, (2, 4), (5, 1)));
    assert!(!twenty(8, (2, 4), (1, 1)) && !twenty(8, (2, 4), (6, 1)));
    assert!(twenty(1, (0, 1), (0, 1)));
}

/// 'or leave a buffer': each party's.
#[test]
fn shares_that_leave_their_buffer() {
    assert!(!twenty(4, (0, 4), (4, 0)));
    assert!(twenty(4, (0, 5), (0, 0)));
    assert!(twenty(4, (1, 4), (0, 1)));
    assert!(twenty(4, (4, 1), (0, 1)));
    assert!(twenty(0, (0, 1), (0, 0)));
    assert!(!twenty(0, (0, 0), (0, 0)));
}

/// Reading 2: an empty share overlaps nothing, but its start is one of 0 to the buffer's length.
#[test]
fn empty_shares() {
    assert!(twenty(4, (5, 0), (0, 0)));
    assert!(twenty(4, (5, 0), (0, 4)));
    assert!(!twenty(4, (4, 0), (0, 4)));
    assert!(!twenty(4, (0, 4), (2, 0)));
    assert!(!twenty(4, (0, 4), (0, 0)));
    assert!(!twenty(4, (2, 0), (2, 0)));
    assert!(twenty(4, (u32::MAX as u64, 0), (0, 0)));
}

/// Reading 4: start + length does not wrap.
#[test]
fn a_share_that_would_wrap() {
    let most = u32::MAX as u64;
    assert!(twenty(4, (most, 2), (0, 0)) && twenty(4, (most, 1), (0, 4)));
    assert!(twenty(4, (2, most), (0, 0)) && twenty(4, (1, most), (0, 0)));
    assert!(twenty(4, (u64::MAX, 2), (0, 0)) && twenty(4, (u64::MAX, 0), (0, 0)));
    assert!(twenty(4, (2, u64::MAX), (0, 1)) && twenty(4, (0, 1), (1, u64::MAX)));
}

/// Readings 3 and 7: both parties' shares are looked at whoever calls, those of a party with no tubes too; 'after 8 and before 9'.
#[test]
fn twenty_in_its_place() {
    let ([a, _], lengths) = laboratories();
    let twenty = Err(Refusal::new(20, 0));
    let mut overlapping = a.clone();
    overlapping.other[5].start -= 1;
    assert_eq!(overlapping.alone(lengths).0, twenty);
    // Before 9, 10 and 11, with no room of any kind.
    let mut short = lengths;
    short[6] -= 1;
    assert_eq!(overlapping.alone(short).0, twenty);
    assert_eq!(a.alone(short).0, Err(Refusal::new(9, 0)));
    overlapping.mine[0].length = 0;
    assert_eq!(overlapping.alone(lengths).0, twenty);
    let many = with_vertices(1_048_578, 64).expect("such lengths exist");
    overlapping.records = record_bytes(&many.segments);
    overlapping.job = RawJob {
        segments: Vec::new(),
        ..many
    }
    .bytes();
    let mut wide = lengths;
    (wide[6], wide[7]) = (8 * 64, 32 * 64);
    assert_eq!(overlapping.alone(wide).0, twenty);
    overlapping.other[5].start += 1;
    assert_eq!(overlapping.alone(wide).0, Err(Refusal::new(10, 0)));
    // After 4 to 8.
    overlapping = a.clone();
    overlapping.other[0].start = 0;
    overlapping.records[0] = 3;
    assert_eq!(overlapping.alone(lengths).0, Err(Refusal::new(6, 0)));
    overlapping.records.pop();
    assert_eq!(overlapping.alone(lengths).0, Err(Refusal::new(4, 0)));
    let mut far = straight(6);
    far.atoms[5].xyz[0] = f64::NAN;
    overlapping.records = helix();
    overlapping.job = far.bytes();
    assert_eq!(overlapping.alone(lengths).0, Err(Refusal::new(8, 5)));
}

// ── Refusals 9 to 11 ──────────────────────────────────────────────────────────

/// 11 is on the lengths of the calling party's shares and carries its own K, V, T (reading 7), however long the buffers are and whatever the other has.
#[test]
fn eleven_is_of_the_share() {
    let ([a, b], lengths) = laboratories();
    let eleven = |call: &Call| {
        let tubes = list(&decode(&with(&call.job, &call.records)).unwrap());
        let carried = [tubes.k, tubes.v, tubes.t].map(|n| n as u32);
        Err(Refusal {
            number: 11,
            carried,
        })
    };
    for call in [&a, &b] {
        for i in 0..6 {
            let mut short = call.clone();
            short.mine[i].length -= 1;
            let (answer, buffers) = short.alone(lengths.map(|n| n + 100));
            assert_eq!(answer, eleven(call));
            let before = buffers_before(lengths.map(|n| n + 100));
            assert_eq!(words(&buffers), words(&before));
            // Past check 9, so that the scratch is cleared.
            assert!(buffers.words[..48].iter().all(|&w| w == 0));
            // The other's share a place short is nothing to this party.
            let mut other = call.clone();
            other.other[i].length -= 1;
            assert!(other.alone(lengths).0.is_ok());
        }
    }
    assert_ne!(eleven(&a), eleven(&b));
}

/// Reading 9: a party that wants its counts first asks with six empty shares, or plans.
#[test]
fn counts_first() {
    let ([a, b], lengths) = laboratories();
    for call in [a, b] {
        let mut empty = call.clone();
        empty.mine = std::array::from_fn(|i| Share::new(lengths[i] as u64, 0));
        let refusal = empty.alone(lengths).0.unwrap_err();
        let mut scratch = buffers_before(lengths);
        let (counts, five) = plan_records(
            &call.job,
            &call.records,
            1,
            &mut scratch.words,
            &mut scratch.floats,
        )
        .expect("a plan");
        assert_eq!(
            (refusal.number, refusal.carried),
            (11, [counts.k, counts.v, counts.t])
        );
        assert_eq!(Ok(counts), call.alone(lengths).0);
        let (_, built) = call.alone(lengths);
        assert_eq!(part(&built, &call.mine)[4][5..10], five);
        assert!(scratch.words.iter().all(|&w| w == 0));
    }
}

/// 'limit 10 applies to each alone': on one job both parties have 1,048,576 vertices, and what one of them has past that is nothing to the other.
#[test]
fn ten_applies_to_each_alone() {
    let mut job = at_vertex_limit(0);
    let within = std::mem::take(&mut job.segments);
    let past = [&within[..], &[segment(1, 0, 1)]].concat();
    let job = job.bytes();
    let call = |segments: &[RawSegment]| Call {
        job: job.clone(),
        records: record_bytes(segments),
        mine: [Share::default(); 6],
        other: [Share::default(); 6],
    };
    let mut b = buffers_before([0, 0, 0, 0, 0, 0, 8 * 64, 32 * 64]);
    let mut told = |segments: &[RawSegment]| {
        let r = call(segments).run(&mut b).expect_err("no room");
        (r.number, r.carried[1])
    };
    assert_eq!([told(&within), told(&within)], [(11, 1_048_576); 2]);
    assert_eq!([told(&past), told(&within)], [(10, 0), (11, 1_048_576)]);
}

// ── In the stream ─────────────────────────────────────────────────────────────

/// Two residues and no record: 222 + 222 + 74 + 432 + 5 + 6 places for party 1, behind one place of party 0 in each buffer.
fn build_request() -> Request {
    let needs = [222, 222, 74, 432, 5, 6];
    let mut lengths = [0, 0, 0, 0, 0, 0, 16, 64];
    let mut words = Vec::new();
    words.extend([[0, 1]; 6].concat());
    for (i, need) in needs.into_iter().enumerate() {
        lengths[i] = need + 1;
        words.extend([1, need]);
    }
    // M.
    words.push(0);
    let mut bytes = encode_words(&words);
    assert_eq!(bytes.len(), 100);
    bytes.extend(two_residues().bytes());
    Request {
        call: BUILD_SHARE,
        lengths,
        k: 1,
        bytes,
    }
}

/// u32 M, then a helix over the two residues, then the job.
fn plan_request() -> Request {
    let mut bytes = vec![0, 0, 0, 9, 1, 0, 0, 0, 1, 0, 0, 0, 2];
    bytes.extend(two_residues().bytes());
    Request {
        call: PLAN_RECORDS,
        lengths: [0, 0, 0, 0, 0, 0, 16, 64],
        k: 0,
        bytes,
    }
}

#[test]
fn the_bytes_of_a_partys_build() {
    let r = build_request();
    let a = answer(&r);
    assert_eq!(a.len(), 4 + 223 + 223 + 75 + 433 + 6 + 7 + 16 + 64);
    assert_eq!(a[..5], [0, 1, 74, 144, 0x4000_0000]);
    let tags = 4 + 223 + 223;
    assert_eq!(a[tags..tags + 3], [0xC0DE_0000, 0, 0]);
    let triangles = tags + 75;
    assert_eq!(a[triangles..triangles + 4], [0xC0DE_0000, 8, 1, 0]);
    let tubes = triangles + 433;
    assert_eq!(a[tubes..tubes + 6], [0xC0DE_0000, 0, 0, 2, 0, 0]);
    assert!(a[a.len() - 80..].iter().all(|&w| w == 0));
    // Party 0 has a place of each, and is told what it needs.
    let first = answer(&Request { k: 0, ..r.clone() });
    assert_eq!(first[..4], [11, 1, 74, 144]);
    // What is said of them is read back.
    let party = PartyBytes::of(&r).expect("its bytes");
    assert_eq!(party.encode(), r.bytes);
    assert_eq!(party.job, two_residues().bytes());
}

#[test]
fn the_bytes_of_a_partys_plan() {
    let r = plan_request();
    let a = answer(&r);
    assert_eq!(a.len(), 4 + 5 + 16 + 64);
    assert_eq!(a[..9], [0, 1, 74, 144, 1, 0, 2, 0, 0]);
    assert!(a[9..].iter().all(|&w| w == 0));
    // Past the last tube the five words are 0; k is no party here.
    let past = answer(&Request { k: 7, ..r.clone() });
    assert_eq!(past[..9], [0, 1, 74, 144, 0, 0, 0, 0, 0]);
    assert_eq!(PartyBytes::of(&r).expect("its bytes").encode(), r.bytes);
}

/// A party other than 0 and 1, bytes that end too early, and lengths past the arrays.
#[test]
fn what_is_passed_over() {
    let over = |good: &Request, change: &dyn Fn(&mut Request)| {
        let mut r = good.clone();
        change(&mut r);
        answer(&r) == [TOO_LONG]
    };
    let build = build_request();
    assert!([2, 3, u32::MAX].iter().all(|&k| over(&build, &|r| r.k = k)));
    for (good, fixed) in [(build, 100), (plan_request(), 4)] {
        assert!(!over(&good, &|_| {}));
        for length in [0, 3, fixed - 1] {
            assert!(over(&good, &|r| r.bytes.truncate(length)), "{length}");
        }
        let rest = (good.bytes.len() - fixed) as u32;
        let m = |m: u32| {
            let mut r = good.clone();
            r.bytes[fixed - 4..fixed].copy_from_slice(&m.to_be_bytes());
            answer(&r)[0]
        };
        // All of it records leaves an empty job.
        assert_eq!(m(rest), 1);
        assert_eq!([m(rest + 1), m(u32::MAX)], [TOO_LONG; 2]);
        for (i, most) in MOST.into_iter().enumerate() {
            assert!(!over(&good, &|r| r.lengths[i] = r.lengths[i].max(most)));
            assert!(over(&good, &|r| r.lengths[i] = most + 1));
        }
        assert!(!over(&good, &|r| r.bytes.resize(MOST_BYTES, 0)));
        assert!(over(&good, &|r| r.bytes.resize(MOST_BYTES + 1, 0)));
    }
}

// ── The requests of the kind `parties` ────────────────────────────────────────

const SEED: u64 = 23;
const REQUESTS: u64 = 3000;

fn requests() -> impl Iterator<Item = Request> {
    (0..REQUESTS).map(|i| Kind::Parties.request(SEED, i))
}

/// Each answer of both calls is frequent, and so are both parties.
#[test]
fn requests_for_parties_give_every_answer() {
    let mut seen = std::collections::BTreeMap::new();
    let mut parties = [0; 2];
    for (i, r) in requests().enumerate() {
        assert_eq!(Kind::Parties.request(SEED, i as u64), r);
        let a = answer(&r);
        *seen.entry((r.call, a[0])).or_insert(0) += 1;
        if r.call == BUILD_SHARE && a[0] == 0 && a[1] > 0 {
            parties[r.k as usize] += 1;
        }
    }
    println!("{seen:?}");
    let builds = [800, 30, 10, 5, 150, 5, 60, 20, 15, 60, 2, 60];
    let plans = [400, 5, 3, 1, 50, 1, 20, 5, 3, 20, 1];
    let wanted = |call: u8, least: &[u64]| {
        let numbers = least.iter().enumerate();
        numbers
            .map(move |(n, &l)| ((call, n as u32), l))
            .collect::<Vec<_>>()
    };
    let mut all = wanted(BUILD_SHARE, &builds);
    all.extend(wanted(PLAN_RECORDS, &plans));
    all.extend([((BUILD_SHARE, 20), 250), ((BUILD_SHARE, TOO_LONG), 5)]);
    all.push(((PLAN_RECORDS, TOO_LONG), 2));
    for (answer, least) in &all {
        let count = seen.get(answer).copied().unwrap_or(0);
        assert!(count >= *least, "{answer:?}: {seen:?}");
    }
    assert_eq!(all.len(), seen.len(), "{seen:?}");
    assert!(parties.iter().all(|&n| n > 200), "{parties:?}");
}

/// What a request of call 7 says, if it is answered: both parties' shares, and the answer.
fn shares_of(r: &Request) -> Option<([Shares; 2], Vec<u32>)> {
    let a = answer(r);
    if r.call != BUILD_SHARE || a[0] == TOO_LONG {
        return None;
    }
    let party = PartyBytes::of(r)?;
    Some((party.shares?, a))
}

/// 'After a mesh only places of the own share's front change': read from the answers alone.
#[test]
fn nothing_but_the_front_of_the_own_share_is_written() {
    for r in requests() {
        let Some((shares, a)) = shares_of(&r) else {
            continue;
        };
        let mesh = a[0] == 0;
        let [k, v, t] = [a[1], a[2], a[3]].map(|n| if mesh { n as u64 } else { 0 });
        let written = needs(k, v, t, 0);
        let before = words(&buffers_before(r.lengths));
        let mut rest = &a[4..];
        for i in 0..6 {
            let (buffer, after) = rest.split_at(r.lengths[i] as usize);
            rest = after;
            let start = if written[i] > 0 {
                shares[r.k as usize][i].start
            } else {
                0
            };
            let own = start..start + written[i];
            let kept = |&p: &usize| own.contains(&(p as u64)) || buffer[p] == before[i][p];
            assert!((0..buffer.len()).all(|p| kept(&p)));
        }
    }
}

/// In each of the six buffers alone: shares that overlap, party 0's that leaves it, party 1's; called by either party.
#[test]
fn requests_for_parties_give_20_by_each_buffer_alone() {
    let mut seen = [[[0; 2]; 3]; 6];
    for r in requests() {
        let Some((shares, a)) = shares_of(&r) else {
            continue;
        };
        let mut faults = Vec::new();
        for i in 0..6 {
            let (n, a, b) = (r.lengths[i] as u64, shares[0][i], shares[1][i]);
            let end = |s: Share| s.start + s.length;
            let apart = a.length == 0 || b.length == 0 || end(a) <= b.start || end(b) <= a.start;
            let found = [!apart, end(a) > n, end(b) > n];
            faults.extend((0..3).filter(|&f| found[f]).map(|f| (i, f)));
        }
        assert!(a[0] != 20 || !faults.is_empty());
        assert!(!matches!(a[0], 0 | 9..=11) || faults.is_empty());
        if let [(i, fault)] = faults[..]
            && a[0] == 20
        {
            seen[i][fault][r.k as usize] += 1;
        }
    }
    let all = seen.iter().flatten().flatten();
    assert!(all.clone().all(|&n| n >= 1), "{seen:?}");
    assert!(all.sum::<u64>() > 200, "{seen:?}");
}

/// What the shares of one request hold, in any of its buffers.
fn forms(r: &Request, shares: &[Shares; 2], number: u32) -> [bool; 12] {
    let mut here = [false; 12];
    for i in 0..6 {
        let n = r.lengths[i] as u64;
        for (a, b) in [(shares[0][i], shares[1][i]), (shares[1][i], shares[0][i])] {
            let end = a.start + a.length;
            let full = a.length > 0 && b.length > 0;
            let taken = [0, 11].contains(&number);
            here[0] |= taken && full && end == b.start;
            here[1] |= taken && full && end < b.start;
            here[2] |= full && end == b.start + 1 && number == 20;
            here[3] |= taken && a.length == 0 && a.start > b.start && a.start < b.start + b.length;
            here[4] |= taken && a == Share::new(n, 0) && n > 0;
            here[5] |= number == 20 && a == Share::new(n + 1, 0);
            here[6] |= number == 20 && end == n + 1;
            here[7] |= number == 20 && a.start == u32::MAX as u64;
            here[8] |= number == 20 && end > u32::MAX as u64 && (end as u32 as u64) <= n;
            here[9] |= number == 0 && a.length > 5 && a.start % 30 != 0 && full;
        }
    }
    // Either party's share of positions first.
    let first = shares[0][0].start < shares[1][0].start;
    let apart = number == 0 && shares.iter().all(|s| s[0].length > 0);
    here[10] = apart && first;
    here[11] = apart && !first;
    here
}

#[test]
fn requests_for_parties_hold_each_form_of_shares() {
    let mut seen = [0; 12];
    for r in requests() {
        if let Some((shares, a)) = shares_of(&r) {
            let here = forms(&r, &shares, a[0]);
            seen.iter_mut()
                .zip(here)
                .for_each(|(n, is)| *n += is as u64);
        }
    }
    assert!(seen.iter().all(|&n| n >= 10), "{seen:?}");
}

/// Two refusals to choose from: 20 beside a short scratch, beside a short share, and behind what is wrong with job or records.
#[test]
fn requests_for_parties_have_two_refusals_to_choose_from() {
    let mut seen = [0; 4];
    for r in requests() {
        let Some((shares, a)) = shares_of(&r) else {
            continue;
        };
        let party = PartyBytes::of(&r).expect("shares");
        let [mine, other] = match r.k {
            0 => shares,
            _ => [shares[1], shares[0]],
        };
        let apart = [Share::default(); 6];
        let room = |shares: &Shares| {
            let mut b = buffers_before(r.lengths);
            let answer = build_share(&party.job, &party.records, shares, &apart, &mut b);
            answer.err().map_or(0, |r| r.number)
        };
        // Without the shares it would be 9.
        seen[0] += (a[0] == 20 && room(&apart) == 9) as u64;
        seen[1] += (a[0] == 20 && room(&mine) == 11) as u64;
        let mut plain = buffers_before(r.lengths);
        let empty = RawJob::default().bytes();
        let bad = build_share(&empty, &[], &mine, &other, &mut plain).is_err();
        seen[2] += (bad && (5..=8).contains(&a[0])) as u64;
        seen[3] += (bad && (1..=4).contains(&a[0])) as u64;
    }
    assert!(seen.iter().all(|&n| n >= 15), "{seen:?}");
}

/// Each of these is in 3,000 requests, and is no more than seldom.
#[test]
fn requests_for_parties_have_very_many_records() {
    let many = requests().enumerate().filter_map(|(i, r)| {
        let bytes = PartyBytes::of(&r)?.records.len();
        (bytes > 60_000).then(|| (i, bytes, answer(&r)))
    });
    let many: Vec<_> = many.collect();
    let told = many.iter().map(|(_, bytes, a)| (*bytes, [a[0], a[1]]));
    let told: Vec<_> = told.collect();
    assert_eq!(told.len(), 6, "{told:?}");
    let (most, past) = (9 * 65_535, 9 * 65_536);
    assert_eq!([told[0], told[4]], [(past, [4, 0]); 2]);
    assert_eq!((told[1].0, told[1].1[0]), (most, 0));
    assert_eq!((told[2].0, told[2].1[0]), (65_538, 0));
    assert_eq!(told[3], (most, [6, 65_534]));
    assert_eq!(told[5], (most + 1, [4, 0]));
}

/// Of eight requests the last three are one party's build, the other's on the same job, shares and lengths, and the first one's again.
#[test]
fn requests_for_parties_come_in_runs() {
    let mut unlike = 0;
    for run in 0..REQUESTS / 8 {
        let [a, b, again] = [5, 6, 7].map(|i| Kind::Parties.request(SEED, 8 * run + i));
        assert_eq!(a, again);
        assert_eq!((a.k + b.k, a.lengths), (1, b.lengths));
        let [p, q] = [&a, &b].map(|r| PartyBytes::of(r).expect("a party's bytes"));
        assert_eq!((p.shares, p.job), (q.shares, q.job));
        unlike += (p.records != q.records) as u64;
    }
    assert!(unlike > 200, "{unlike}");
}
