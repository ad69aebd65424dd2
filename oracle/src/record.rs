//! The recorded answers: a fixed sample of requests of every call and every kind of answer, and what the oracle answers to them. A
//! program without Rust at hand replays them.

use std::{collections::HashMap, fs, io, path::Path};

use crate::{
    cases,
    generator::{cap_request, file_request, job_request, party_request, stl_request},
    protocol::{
        BUILD, BUILD_SHARE, NAMES, PLAN, PLAN_RECORDS, READ, READ_STL, Request, TOO_LONG, TUBE,
        WRITE_STL, answer, encode_answer,
    },
    wrong::{self, Mutation},
};

const SEED: u64 = 20_250_101;
/// A request and its answer together, in bytes: meshes of a few tubes.
const MOST_EACH: usize = 14_000;
/// The same for STL, where lent bytes are one each: the mesh of two residues and its file, with a few places more.
const MOST_STL: usize = 11_600;
/// The same for a party's call: a mesh of two residues with little room for the other's; and where 1 to 9 refuse it before there is one.
const MOST_PARTY: usize = 5_400;
const MOST_REFUSED: usize = 1_500;
/// The same for an end cap without a chord: a tube of two residues.
const MOST_CAP: usize = 4_800;
/// How many generated requests for end caps are kept.
const CAPS: usize = 4;
/// The mistakes about parties that show only where there are very many records, which would take more room than all else.
pub const OF_MANY: [Mutation; 4] = [
    Mutation::PartyManyTaken,
    Mutation::PartyCountWraps,
    Mutation::PartyLimitExclusive,
    Mutation::PartyLimitOfBytes,
];

/// How many generated requests of this call and kind of answer are kept. A part of a tube counts as kind 1. A party's 10 and 11 are cases by hand:
/// no generated one is small.
fn wanted(call: u8, kind: u32) -> usize {
    match (call, kind) {
        (BUILD, 0) => 90,
        (BUILD, 10) => 1,
        (BUILD, 11) => 14,
        (BUILD, _) => 8,
        (PLAN, 0) => 40,
        (PLAN, 10) => 1,
        (PLAN, 11) => 0,
        (PLAN, _) => 3,
        (TUBE, _) => 15,
        (READ, 0) => 50,
        (READ, 12..=14) => 20,
        (READ, 16) => 10,
        (WRITE_STL, 0) => 9,
        (WRITE_STL, 17) => 8,
        (WRITE_STL, 18) => 4,
        (READ_STL, 0) => 7,
        (READ_STL, 18) => 4,
        (READ_STL, 19) => 4,
        (BUILD_SHARE, 0) => 3,
        (BUILD_SHARE, 20) => 4,
        (BUILD_SHARE, 1..=9) => 1,
        (PLAN_RECORDS, 0) => 3,
        (PLAN_RECORDS, 1..=9) => 1,
        _ => 0,
    }
}

/// The kinds of answers to a call. No file here is so large that it gets 15.
fn kinds(call: u8) -> std::ops::RangeInclusive<u32> {
    match call {
        TUBE => 0..=1,
        READ => 0..=16,
        WRITE_STL | READ_STL => 0..=19,
        BUILD_SHARE => 0..=20,
        _ => 0..=11,
    }
}

/// The bench cases of 01, then generated requests of every kind, then files, then the job of equal coordinates, then STL, then two parties, and last
/// end caps without a chord. What is added stands at the end, so that the requests before it stay as they are.
pub fn sample() -> Vec<Request> {
    let mut sample = cases::requests();
    keep(&mut sample, &[BUILD, PLAN, TUBE], job_request);
    keep(&mut sample, &[READ], file_request);
    sample.push(cases::build_request(&cases::ties(), [1, 74, 144], 0));
    keep(&mut sample, &[WRITE_STL, READ_STL], stl_request);
    keep_what_shows(&mut sample, "Stl", is_stl, stl_request);
    sample.extend(cases::laboratories());
    sample.push(cases::party_short_of_normals());
    sample.push(cases::party_past_the_limit());
    keep(&mut sample, &[BUILD_SHARE, PLAN_RECORDS], party_request);
    keep_what_shows(&mut sample, "Party", is_party, party_request);
    sample.extend(cases::caps().iter().map(cases::Cap::request));
    sample.push(cases::party_without_chord());
    sample.extend(generated_caps());
    sample
}

/// The first small builds of the kind `caps` at which the Rust's answer, a normal of zeros, shows.
fn generated_caps() -> impl Iterator<Item = Request> {
    let small = |r: &Request| {
        r.call == BUILD && r.bytes.len() + 4 * places_lent(r) <= MOST_CAP && answer(r)[0] == 0
    };
    let requests = (0..).map(|i| cap_request(SEED, i));
    requests
        .filter(move |r| small(r) && shows(Mutation::CapZero, r))
        .take(CAPS)
}

fn places_lent(r: &Request) -> usize {
    r.lengths.iter().map(|&n| n as usize).sum()
}

/// Whether the answer to this request is another one with this mistake.
pub fn shows(m: Mutation, r: &Request) -> bool {
    wrong::with(Some(m), || answer(r)) != answer(r)
}

/// Keeps requests of these calls until each mistake about them shows in one of them.
fn keep_what_shows(
    sample: &mut Vec<Request>,
    prefix: &str,
    is_one: fn(&Request) -> bool,
    request: fn(u64, u64) -> Request,
) {
    let about = |m: &&Mutation| m.name().starts_with(prefix) && !OF_MANY.contains(m);
    for &m in Mutation::ALL.iter().filter(about) {
        if sample.iter().any(|r| is_one(r) && shows(m, r)) {
            continue;
        }
        let requests = (0..).map(|i| request(SEED, i));
        let mut small = requests.filter(|r| {
            if lent_too_much(r) {
                return false;
            }
            let a = answer(r);
            a[0] != TOO_LONG && !too_large(r, &a)
        });
        sample.extend(small.find(|r| shows(m, r)));
    }
}

fn is_stl(r: &Request) -> bool {
    [WRITE_STL, READ_STL].contains(&r.call)
}

fn is_party(r: &Request) -> bool {
    [BUILD_SHARE, PLAN_RECORDS].contains(&r.call)
}

/// Whether a party's call is too large by its bytes and the places that it is lent, whatever is answered. Most are, and need no answer.
fn lent_too_much(r: &Request) -> bool {
    let lent = if r.call == BUILD_SHARE { 0 } else { 6 };
    let places: usize = r.lengths[lent..].iter().map(|&n| n as usize).sum();
    is_party(r) && r.bytes.len() + 4 * places > MOST_PARTY
}

/// Whether a request and its answer would take too much room here.
fn too_large(r: &Request, a: &[u32]) -> bool {
    match r.call {
        _ if is_stl(r) => r.encode().len() + encode_answer(r, a).len() > MOST_STL,
        _ if is_party(r) => {
            let early = (1..=9).contains(&a[0]);
            r.bytes.len() + 4 * a.len() > if early { MOST_REFUSED } else { MOST_PARTY }
        }
        _ => r.bytes.len() + 4 * a.len() > MOST_EACH + 5000 * (a[0] == 10) as usize,
    }
}

/// Keeps requests of these calls until there are enough of each kind of answer.
fn keep(sample: &mut Vec<Request>, calls: &[u8], request: fn(u64, u64) -> Request) {
    let mut kept: HashMap<(u8, u32), usize> = HashMap::new();
    let total = |&call: &u8| kinds(call).map(|kind| wanted(call, kind)).sum::<usize>();
    let mut left: usize = calls.iter().map(total).sum();
    for i in 0.. {
        if left == 0 {
            break;
        }
        let r = request(SEED, i);
        if r.bytes.len() > MOST_EACH || lent_too_much(&r) {
            continue;
        }
        let a = answer(&r);
        // Replaying needs no request that a program passes over.
        if a[0] == TOO_LONG || too_large(&r, &a) {
            continue;
        }
        let kind = if r.call == TUBE { a[0].min(1) } else { a[0] };
        let count = kept.entry((r.call, kind)).or_default();
        if *count < wanted(r.call, kind) {
            *count += 1;
            left -= 1;
            sample.push(r);
        }
    }
}

/// The two files' contents: all requests, all answers.
pub fn files() -> (Vec<u8>, Vec<u8>) {
    let sample = sample();
    let requests = sample.iter().flat_map(Request::encode).collect();
    let answers = sample
        .iter()
        .flat_map(|r| encode_answer(r, &answer(r)))
        .collect();
    (requests, answers)
}

fn readme(sample: &[Request]) -> String {
    let requests = sample.len();
    let longest = |f: &dyn Fn(&Request) -> usize| sample.iter().map(f).max().unwrap_or(0);
    // A length that its call does not look at says nothing.
    let used = |r: &Request, i: usize| match r.call {
        READ => i == 0,
        WRITE_STL => i < 7,
        READ_STL => i < 2,
        _ => true,
    };
    let length = |r: &Request, i: usize| r.lengths[i] as usize * used(r, i) as usize;
    let lengths: Vec<String> = NAMES
        .iter()
        .enumerate()
        .map(|(i, name)| format!("{name} {}", longest(&|r| length(r, i))))
        .collect();
    let (lengths, bytes) = (lengths.join(", "), longest(&|r| r.bytes.len()));
    format!(
        "# Recorded answers of the oracle

`requests.bin` holds {requests} requests in the stream protocol of the batch program (`oracle/src/protocol.rs` says how they are laid out), `answers.bin`
the oracle's answers in the same order. They were made by

    cargo run --release --offline --manifest-path oracle/Cargo.toml -- record --out crates/replay/data

which always gives the same bytes: first the bench cases of 01 (`oracle/src/cases.rs`), then requests of the generator's seed {SEED}, kept until
there are enough of each call and each kind of answer: meshes, refusals 1 to 11, plans, parts of a triangle buffer and empty parts; then PDB
files, jobs and refusals 12, 13, 14 and 16 (a file that gets 15 has 16,385 residues); then the job `ties` of `cases.rs`, whose box has equal
coordinates to choose from, +0 and -0; then binary STL, mesh buffers written and files listed, with refusals 17, 18 and
19, and requests at which each mistake about STL in `wrong.rs` shows; then two parties on one job: two laboratories by turns (`cases.rs`), then
builds with refusals 1 to 11 and 20, plans with refusals 1 to 9, and requests at which each mistake about parties shows, but for four about very many
records; and last tubes whose end cap has no chord, or hardly any (02 §6): the smallest known, of each kind (`caps` of `cases.rs`), at which each mistake
about end caps shows, one of a party, and {CAPS} of the generator's kind `caps`.
The longest buffers lent are, in places (the lent job bytes of call 4 and the corner floats of call 6 count as positions, its normal floats as normals,
the lent STL bytes of call 5 as scratch words): {lengths}; the longest bytes of a request {bytes}.
The oracle's tests fail when it answers otherwise; the program `replay` runs them without it. The cosines and sines behind the meshes are those
of `docs/ANGLES.md`.
"
    )
}

pub fn record(out: &Path) -> io::Result<()> {
    let (requests, answers) = files();
    fs::create_dir_all(out)?;
    fs::write(out.join("requests.bin"), &requests)?;
    fs::write(out.join("answers.bin"), &answers)?;
    fs::write(out.join("README.md"), readme(&sample()))
}
