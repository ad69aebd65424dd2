//! The recorded answers are what the oracle answers now, hold every call and every kind of answer, and show which of equals a box keeps and what an
//! end cap without a chord takes.

use std::{collections::HashSet, fs, path::PathBuf};

use oracle::{
    angles,
    cases::ties,
    protocol::{
        BUILD, BUILD_SHARE, PLAN, PLAN_RECORDS, READ, READ_STL, Request, TUBE, WRITE_STL, answer,
        encode_answer, read_answer,
    },
    record::{self, shows},
    wrong::Mutation,
};

fn file(name: &str) -> Vec<u8> {
    let path = PathBuf::from(env!("CARGO_MANIFEST_DIR"))
        .join("../crates/replay/data")
        .join(name);
    fs::read(&path).unwrap_or_else(|e| panic!("{}: {e}", path.display()))
}

#[test]
fn the_files_are_what_record_writes() {
    if let Some(why) = angles::differs() {
        panic!("{why}; the recorded answers are those of docs/ANGLES.md");
    }
    let (requests, answers) = record::files();
    // Not assert_eq: it would print both files.
    assert!(requests == file("requests.bin"), "requests.bin differs");
    assert!(answers == file("answers.bin"), "answers.bin differs");
}

#[test]
fn they_hold_every_kind_and_are_small() {
    let (requests, answers) = (file("requests.bin"), file("answers.bin"));
    // 1,984,736 bytes before 02 §6, whose end caps take 22 meshes more: every vertex of a mesh is in its answer.
    assert!(requests.len() + answers.len() < 2_120_000);
    let (mut input, mut output) = (&requests[..], &answers[..]);
    let mut kinds = HashSet::new();
    while let Some(r) = Request::read(&mut input).unwrap() {
        let a = read_answer(&r, &mut output).unwrap().expect("an answer");
        let kind = if r.call == TUBE { a[0].min(1) } else { a[0] };
        kinds.insert((r.call, kind));
    }
    assert!(output.is_empty(), "more answers than requests");
    let mut wanted: HashSet<(u8, u32)> = (0..=11).map(|n| (BUILD, n)).collect();
    wanted.extend((0..=10).map(|n| (PLAN, n)));
    wanted.extend([(TUBE, 0), (TUBE, 1)]);
    wanted.extend([0, 12, 13, 14, 16].map(|n| (READ, n)));
    wanted.extend([0, 17, 18].map(|n| (WRITE_STL, n)));
    wanted.extend([0, 18, 19].map(|n| (READ_STL, n)));
    wanted.extend((0..=11).chain([20]).map(|n| (BUILD_SHARE, n)));
    wanted.extend((0..=9).map(|n| (PLAN_RECORDS, n)));
    assert_eq!(kinds, wanted);
}

#[test]
fn the_job_of_equal_coordinates_shows_the_earlier() {
    let sample = record::sample();
    let ties: Vec<&Request> = sample
        .iter()
        .filter(|r| r.call == BUILD && r.bytes == ties().bytes())
        .collect();
    assert_eq!(ties.len(), 1);
    assert!(shows(Mutation::BoxLaterOfEquals, ties[0]));
}

/// They are few, and yet a program without Rust at hand finds each mistake about STL by them.
#[test]
fn each_mistake_about_stl_shows_in_them() {
    let sample = record::sample();
    let stl = sample
        .iter()
        .filter(|r| [WRITE_STL, READ_STL].contains(&r.call));
    let stl: Vec<&Request> = stl.collect();
    assert!((36..=50).contains(&stl.len()), "{} of STL", stl.len());
    for &m in Mutation::ALL {
        if m.name().starts_with("Stl") {
            assert!(stl.iter().any(|r| shows(m, r)), "{}", m.what());
        }
    }
}

/// And each mistake about parties, but for those that very many records show.
#[test]
fn each_mistake_about_parties_shows_in_them() {
    let sample = record::sample();
    let parties = sample
        .iter()
        .filter(|r| [BUILD_SHARE, PLAN_RECORDS].contains(&r.call));
    let parties: Vec<&Request> = parties.collect();
    assert!((40..=50).contains(&parties.len()), "{}", parties.len());
    for &m in Mutation::ALL {
        if m.name().starts_with("Party") && !record::OF_MANY.contains(&m) {
            assert!(parties.iter().any(|r| shows(m, r)), "{}", m.what());
        }
    }
}

/// And each mistake about end caps: in the builds behind all others.
#[test]
fn each_mistake_about_caps_shows_in_them() {
    let sample = record::sample();
    let caps = &sample[517..];
    assert_eq!(caps.len(), 22);
    for &m in Mutation::ALL {
        if m.name().starts_with("Cap") {
            assert!(caps.iter().any(|r| shows(m, r)), "{}", m.what());
        }
    }
    let of_parties = caps.iter().filter(|r| r.call == BUILD_SHARE);
    let shown = of_parties.filter(|r| shows(Mutation::CapZero, r)).count();
    assert_eq!(shown, 1);
}

#[test]
fn a_stream_is_read_as_it_was_written() {
    let mut input = &record::files().0[..];
    for expected in record::sample() {
        let r = Request::read(&mut input).unwrap().expect("a request");
        assert_eq!(r, expected);
        let words = answer(&r);
        let read = read_answer(&r, &mut &encode_answer(&r, &words)[..]).unwrap();
        assert_eq!(read, Some(words));
    }
    assert_eq!(Request::read(&mut input).unwrap(), None);
    // Input that ends inside a request ends it.
    let whole = record::sample()[3].encode();
    assert_eq!(Request::read(&mut &whole[..whole.len() - 1]).unwrap(), None);
}
