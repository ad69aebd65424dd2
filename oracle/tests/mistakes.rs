//! Each deliberate mistake is caught by the generator's requests: within some thousands of them the wrong answer differs. Those of the command
//! `ribbon` change no answer; `tests/ribbon.rs` has them.

use oracle::{
    generator::{Kind, request},
    job::RawJob,
    protocol::{Request, answer},
    wrong::{self, Mutation},
};

const SEED: u64 = 7;
const WITHIN: u64 = 15_000;

/// The kind of the requests that must catch this mistake: jobs and files, but for those of 02 §4, §5 and §6, and for the one mistake that shows only
/// in a box with zeros of both signs to choose from, which those jobs do not have.
fn kind_that_shows(m: Mutation) -> Kind {
    match m {
        Mutation::BoxLaterOfEquals => Kind::Boxes,
        m if m.name().starts_with("Stl") => Kind::Stl,
        m if m.name().starts_with("Party") => Kind::Parties,
        m if m.name().starts_with("Cap") => Kind::Caps,
        _ => Kind::Both,
    }
}

/// The first request at which this mistake shows.
fn caught(m: Mutation) -> Option<u64> {
    (0..WITHIN).find(|&i| {
        let r = kind_that_shows(m).request(SEED, i);
        wrong::with(Some(m), || answer(&r)) != answer(&r)
    })
}

#[test]
fn every_mistake_is_caught() {
    let missed: Vec<_> = Mutation::ALL
        .iter()
        .filter(|m| !m.name().starts_with("Ribbon"))
        .filter(|&&m| {
            let at = caught(m);
            println!("{}: {at:?}", m.name());
            at.is_none()
        })
        .map(|m| m.what())
        .collect();
    assert!(missed.is_empty(), "not caught within {WITHIN}: {missed:?}");
}

/// What a segment takes, and from which atoms, shows on atoms out of order too.
#[test]
fn mistakes_in_segments_show_out_of_order() {
    let requests: Vec<_> = (0..1500).map(|i| Kind::Orders.request(SEED, i)).collect();
    let falls = |r: &&Request| {
        RawJob::of(&r.bytes)
            .is_some_and(|job| job.atoms.windows(2).any(|w| w[1].serial < w[0].serial))
    };
    let falling: Vec<&Request> = requests.iter().filter(falls).collect();
    assert!(falling.len() > 600, "{} of 1500", falling.len());
    for m in [Mutation::FirstCaInSegments, Mutation::FirstOInSegments] {
        let shows = |r: &&Request| wrong::with(Some(m), || answer(r)) != answer(r);
        assert!(falling.iter().any(shows), "{}", m.what());
    }
}

#[test]
fn no_mistake_is_in_force_by_itself() {
    assert!(Mutation::ALL.iter().all(|&m| !wrong::wrong(m)));
    let r = request(SEED, 3);
    let before = answer(&r);
    for &m in Mutation::ALL {
        wrong::with(Some(m), || answer(&r));
    }
    assert_eq!(answer(&r), before);
}

/// A mistake gives a wrong answer, and never none: whatever it takes for consistent is written, whatever it takes for a file is listed, and whatever
/// it takes for a share is built in.
#[test]
fn mistakes_end_in_answers() {
    for (prefix, kind, count) in [("Stl", Kind::Stl, 300), ("Party", Kind::Parties, 1000)] {
        let requests: Vec<_> = (0..count).map(|i| kind.request(SEED, i)).collect();
        let about = |m: &&Mutation| m.name().starts_with(prefix);
        for &m in Mutation::ALL.iter().filter(about) {
            let differ = |r: &&Request| wrong::with(Some(m), || answer(r)) != answer(r);
            let shown = requests.iter().filter(differ).count();
            println!("{}: {shown} of {count}", m.name());
        }
    }
}
