//! Two recordings beside each other: each word that differs is counted under its own part, and what cannot be compared is told.

use oracle::{
    cases::{build_request, plan_request, tube_request, two_residues},
    differences::{Count, Differences, PARTS, Recording, differences},
    parties::{Share, Shares},
    protocol::{
        BUILD_SHARE, PLAN_RECORDS, PartyBytes, READ, READ_STL, Request, WRITE_STL, answer,
        encode_answer,
    },
};

/// One request of each call. The PDB file has no line that is read, so its job is the 13 bytes of the empty one, in 20 lent. The mesh is that of no
/// tubes, in 90 lent bytes, and its file has no facet, for lists of 9 and 3 floats. The parties have the two residues and no room: one place of each
/// buffer, and no share of it.
fn requests() -> Vec<Request> {
    let read = Request {
        call: READ,
        lengths: [20, 0, 0, 0, 0, 0, 0, 0],
        k: 0,
        bytes: b"END\n".to_vec(),
    };
    let write_stl = Request {
        call: WRITE_STL,
        lengths: [0, 0, 0, 0, 0, 0, 90, 0],
        k: 0,
        bytes: vec![0; 12],
    };
    let read_stl = Request {
        call: READ_STL,
        lengths: [9, 3, 0, 0, 0, 0, 0, 0],
        k: 0,
        bytes: vec![0; 84],
    };
    vec![
        build_request(&two_residues(), [1, 74, 144], 0),
        plan_request(&two_residues(), 0),
        tube_request(2, 0, 432, 0),
        read,
        write_stl,
        read_stl,
        party_request(BUILD_SHARE, Some([[Share::default(); 6]; 2])),
        party_request(PLAN_RECORDS, None),
    ]
}

fn party_request(call: u8, shares: Option<[Shares; 2]>) -> Request {
    let party = PartyBytes {
        shares,
        records: Vec::new(),
        job: two_residues().bytes(),
    };
    Request {
        call,
        lengths: [1, 1, 1, 1, 1, 1, 16, 64],
        k: 0,
        bytes: party.encode(),
    }
}

fn recording() -> Recording {
    let requests = requests();
    let answers = requests.iter().map(|r| encode_answer(r, &answer(r)));
    Recording {
        answers: answers.flatten().collect(),
        requests,
    }
}

/// The words of the answers to calls 1, 2 and 3, and the bytes of that to call 4: what each part of them takes, by hand.
const BUILD_WORDS: usize = 4 + 222 + 222 + 74 + 432 + 5 + 6 + 16 + 64;
const PLAN_WORDS: usize = 4 + 5 + 16 + 64;
const TUBE_WORDS: usize = 1 + 432;
const READ_AT: usize = 4 * (BUILD_WORDS + PLAN_WORDS + TUBE_WORDS);
const WRITE_STL_AT: usize = READ_AT + 4 * 4 + 20;
const READ_STL_AT: usize = WRITE_STL_AT + 4 * 4 + 90;
const SHARE_AT: usize = READ_STL_AT + 4 * (4 + 9 + 3);
const RECORDS_AT: usize = SHARE_AT + 4 * (4 + 6 + 16 + 64);

/// What differs when one bit of this byte of the answers does.
fn with_bit(at: usize) -> Differences {
    let mut new = recording();
    new.answers[at] ^= 1;
    differences(&recording(), &new).expect("the same requests")
}

fn counted(found: &Differences) -> Vec<&str> {
    let parts = PARTS.iter().zip(found.parts);
    let differ = parts.filter(|(_, c)| c.differ > 0);
    differ.map(|(name, _)| *name).collect()
}

#[test]
fn nothing_differs_from_itself() {
    let found = differences(&recording(), &recording()).unwrap();
    assert_eq!(counted(&found), [""; 0]);
    assert!(found.unlike.is_empty());
    assert!(
        found
            .answers
            .values()
            .all(|c| *c == Count { all: 1, differ: 0 })
    );
    // Every word is in some part, lent bytes as one each: the whole file.
    assert_eq!(
        recording().answers.len(),
        RECORDS_AT + 4 * (4 + 5 + 16 + 64)
    );
    let all: [u64; 14] = [
        4 + 9 + 1 + 4 + 4 + 4 + 4 + 9,
        222 + 1,
        222 + 1,
        74 + 1,
        432 + 1,
        5 + 1,
        6 + 1,
        64,
        256,
        432,
        20,
        90,
        9,
        3,
    ];
    assert_eq!(found.parts.map(|c| c.all), all);
}

#[test]
fn a_changed_box_word_is_counted_under_boxes_and_nowhere_else() {
    let found = with_bit(4 * (4 + 222 + 222 + 74 + 432 + 5));
    assert_eq!(counted(&found), ["boxes"]);
    assert_eq!(found.parts[6], Count { all: 7, differ: 1 });
    assert_eq!(found.answers[&1], Count { all: 1, differ: 1 });
    assert!((2..=8).all(|call| found.answers[&call].differ == 0));
    assert!(found.unlike.is_empty());
    let text = found.text();
    assert!(
        text.contains("\nboxes                         7          1\n"),
        "{text}"
    );
    assert!(
        text.contains("\nto call 1                     1          1\n"),
        "{text}"
    );
}

#[test]
fn each_part_is_counted_under_its_name() {
    let plan = BUILD_WORDS;
    let tube = plan + PLAN_WORDS;
    let words = [
        (1, "the answers' own"),
        (3, "the answers' own"),
        (4, "positions"),
        (225, "positions"),
        (226, "normals"),
        (448, "tags"),
        (522, "triangles"),
        (954, "tubes"),
        (964, "boxes"),
        (965, "scratch words"),
        (981, "scratch floats"),
        (BUILD_WORDS - 1, "scratch floats"),
        (plan + 8, "the answers' own"),
        (plan + 9, "scratch words"),
        (tube - 1, "scratch floats"),
        (tube + 1, "parts of call 3"),
        (READ_AT / 4 - 1, "parts of call 3"),
        (READ_AT / 4 + 3, "the answers' own"),
        (READ_AT / 4 + 4, "job bytes of call 4"),
    ];
    for (word, part) in words {
        assert_eq!(counted(&with_bit(4 * word)), [part], "word {word}");
    }
    let bytes = [
        (WRITE_STL_AT - 1, "job bytes of call 4"),
        (WRITE_STL_AT + 7, "the answers' own"),
        (WRITE_STL_AT + 16, "STL bytes of call 5"),
        (READ_STL_AT - 1, "STL bytes of call 5"),
        (READ_STL_AT + 7, "the answers' own"),
        (READ_STL_AT + 16, "corners of call 6"),
        (READ_STL_AT + 4 * 13 - 1, "corners of call 6"),
        (READ_STL_AT + 4 * 13, "normals of call 6"),
        (SHARE_AT - 1, "normals of call 6"),
    ];
    for (at, part) in bytes {
        assert_eq!(counted(&with_bit(at)), [part], "byte {at}");
    }
}

/// The answers to calls 7 and 8 have the parts of those to 1 and 2.
#[test]
fn the_parts_of_the_parties_are_counted_with_the_others() {
    let bytes = [
        (SHARE_AT + 4, "the answers' own"),
        (SHARE_AT + 4 * 4, "positions"),
        (SHARE_AT + 4 * 9, "boxes"),
        (SHARE_AT + 4 * 10, "scratch words"),
        (RECORDS_AT - 1, "scratch floats"),
        (RECORDS_AT + 4 * 8, "the answers' own"),
        (RECORDS_AT + 4 * 9, "scratch words"),
        (recording().answers.len() - 1, "scratch floats"),
    ];
    for (at, part) in bytes {
        assert_eq!(counted(&with_bit(at)), [part], "byte {at}");
    }
}

/// 01: 'all NaNs count as equal'.
#[test]
fn nans_are_equal() {
    let nan = |bits: u32| {
        let mut r = recording();
        let boxes = 4 * (BUILD_WORDS - 64 - 16 - 6);
        r.answers[boxes..boxes + 4].copy_from_slice(&bits.to_be_bytes());
        r
    };
    let found = differences(&nan(0x7FC0_0000), &nan(0xFF80_0001)).unwrap();
    assert_eq!(counted(&found), [""; 0]);
    let found = differences(&nan(0x7FC0_0000), &nan(0x7F80_0000)).unwrap();
    assert_eq!(counted(&found), ["boxes"]);
}

#[test]
fn another_request_is_told() {
    let told = |change: fn(&mut Vec<Request>)| {
        let mut new = recording();
        change(&mut new.requests);
        differences(&recording(), &new).expect_err("other requests")
    };
    assert!(told(|r| r[2].k = 1).contains("request 2 "));
    assert!(told(|r| r[0].bytes[0] = 1).contains("request 0 "));
    assert!(told(|r| drop(r.pop())).contains("request 7 "));
    assert!(told(|r| r.push(r[0].clone())).contains("request 8 "));
}

/// Its words stand in other places, or mean something else, and are not counted.
#[test]
fn an_answer_of_another_length_or_kind_is_told() {
    // Number 1 in the place of a mesh.
    let found = with_bit(3);
    assert_eq!(found.unlike, [(0, [0, 1])]);
    // The boxes are those of the party's build alone.
    assert_eq!(found.parts[6].all, 1);
    assert_eq!(counted(&found), [""; 0]);
    assert_eq!(found.answers[&1], Count { all: 1, differ: 1 });
    assert!(
        found
            .text()
            .contains("1 answers are of another length or kind")
    );
    // An empty part in the place of one of 432 words; the answers after it are read where they stand.
    let mut new = recording();
    let tube = 4 * (BUILD_WORDS + PLAN_WORDS);
    new.answers.splice(tube..READ_AT, [0; 4]);
    let found = differences(&recording(), &new).unwrap();
    assert_eq!(found.unlike, [(2, [432, 0])]);
    assert_eq!(counted(&found), [""; 0]);
    assert_eq!(found.answers[&4], Count { all: 1, differ: 0 });
}

#[test]
fn answers_that_end_early_or_late_are_told() {
    let mut cut = recording();
    cut.answers.pop();
    let why = differences(&recording(), &cut).expect_err("no whole answer");
    assert!(
        why.starts_with("NEW has no whole answer to request 7 "),
        "{why}"
    );
    let mut more = recording();
    more.answers.push(0);
    let why = differences(&more, &recording()).expect_err("a byte more");
    assert_eq!(why, "OLD has bytes past its last answer");
}
