//! The program `oracle` as users run it: answering, comparing, refusing a bad command line.

use std::{
    fs,
    io::Write,
    path::{Path, PathBuf},
    process::{Command, Output, Stdio},
};

use oracle::{
    cases::{plan_request, tube_request, two_residues},
    protocol::{MOST, Request, answer, encode_words},
    record,
};

const ORACLE: &str = env!("CARGO_BIN_EXE_oracle");

fn run(args: &[&str], input: &[u8]) -> Output {
    let mut child = Command::new(ORACLE)
        .args(args)
        .stdin(Stdio::piped())
        .stdout(Stdio::piped())
        .stderr(Stdio::piped())
        .spawn()
        .unwrap();
    let mut stdin = child.stdin.take().unwrap();
    let input = input.to_vec();
    // The program may end before it has read everything.
    let writer = std::thread::spawn(move || drop(stdin.write_all(&input)));
    let output = child.wait_with_output().unwrap();
    writer.join().unwrap();
    output
}

fn folder(name: &str) -> PathBuf {
    let folder = PathBuf::from(env!("CARGO_TARGET_TMPDIR")).join(name);
    let _ = fs::remove_dir_all(&folder);
    fs::create_dir_all(&folder).unwrap();
    folder
}

fn compare(kind: &str, program: &[&str], jobs: &str, out: &Path) -> Output {
    let out = out.to_str().unwrap();
    let options = ["--kind", kind, "--jobs", jobs, "--seed", "3", "--out", out];
    run(
        &[&["compare"], &options[..], &["--"], program].concat(),
        &[],
    )
}

#[test]
fn the_oracle_equals_itself() {
    for (kind, jobs) in [
        ("both", "5000"),
        ("orders", "500"),
        ("boxes", "500"),
        ("caps", "500"),
        ("stl", "2000"),
        ("parties", "2000"),
    ] {
        let output = compare(kind, &[ORACLE, "answer"], jobs, &folder("itself"));
        let text = String::from_utf8(output.stdout).unwrap();
        assert!(output.status.success(), "{text}");
        let all = format!("all {jobs} answers are equal");
        assert!(text.contains(&all), "{text}");
    }
}

/// What is written of the oracle with this mistake, by requests of this kind.
fn difference_of(kind: &str, mistake: &str, folder: &Path) -> String {
    let wrong = [ORACLE, "answer", "--wrong", mistake];
    let output = compare(kind, &wrong, "5000", folder);
    assert_eq!(output.status.code(), Some(1));
    let written: Vec<_> = fs::read_dir(folder).unwrap().collect();
    assert_eq!(written.len(), 1);
    fs::read_to_string(written[0].as_ref().unwrap().path()).unwrap()
}

#[test]
fn a_wrong_reader_is_caught_and_its_file_shrunk() {
    let text = difference_of("both", "CalciumIsCa", &folder("wrong-reader"));
    assert!(text.contains("first difference: lent bytes"), "{text}");
    // One line of 54 columns is enough, blank where it may be.
    assert!(
        text.contains("line 1: \"ATOM  ") && !text.contains("line 2:"),
        "{text}"
    );
    // A segment, two atoms of its start, and perhaps one of its end.
    let text = difference_of("both", "SegmentFromLastAtom", &folder("wrong-segment"));
    assert!(
        text.contains("line 3:") && !text.contains("line 5:"),
        "{text}"
    );
}

#[test]
fn a_file_read() {
    let line = b"ATOM      1  CA  GLY A   1       1.000   2.000   3.000";
    let output = run(&["read-pdb"], line);
    assert!(output.status.success());
    assert_eq!(output.stdout.len(), 13 + 1 + 33);
    let path = folder("a file").join("one atom.pdb");
    fs::write(&path, line).unwrap();
    assert_eq!(
        run(&["read-pdb", path.to_str().unwrap()], &[]).stdout,
        output.stdout
    );
    let refused = run(&["read-pdb"], &line[..53]);
    assert_eq!(refused.status.code(), Some(1));
    assert_eq!(refused.stderr, b"refused 12 1\n");
    assert!(refused.stdout.is_empty());
}

#[test]
fn a_wrong_program_is_caught_and_its_job_shrunk() {
    let text = difference_of("both", "CutAtFive", &folder("wrong"));
    // Two atoms are enough to show a step of 5.
    assert!(text.contains("first difference"), "{text}");
    assert!(
        text.contains("atom 1:") && !text.contains("atom 2:"),
        "{text}"
    );
    assert!(text.contains("the request in hexadecimal"), "{text}");
}

#[test]
fn a_wrong_box_is_caught_and_its_job_shrunk() {
    let text = difference_of("boxes", "BoxLaterOfEquals", &folder("wrong-box"));
    assert!(text.contains("first difference: boxes, place"), "{text}");
    // Two C-alphas, and perhaps an oxygen each.
    assert!(
        text.contains("atom 1:") && !text.contains("atom 4:"),
        "{text}"
    );
}

#[test]
fn a_wrong_cap_is_caught_and_its_job_shrunk() {
    for mistake in ["CapZero", "CapZeroChord", "CapTinyChord"] {
        let text = difference_of("caps", mistake, &folder("wrong-cap"));
        assert!(text.contains("first difference: normals, place"), "{text}");
        // Two C-alphas.
        assert!(
            text.contains("atom 1:") && !text.contains("atom 2:"),
            "{text}"
        );
    }
}

#[test]
fn a_wrong_writer_of_stl_is_caught_and_its_mesh_shrunk() {
    let text = difference_of("stl", "StlDivided", &folder("wrong-facets"));
    assert!(
        text.contains("first difference: STL bytes, place"),
        "{text}"
    );
    // One tube of two residues, and but a few coordinates and corners that are not 0.
    assert!(
        text.contains("tube 0: [0, 0, 2, 0, 0]") && !text.contains("tube 1:"),
        "{text}"
    );
    assert!(text.matches("  positions ").count() < 8, "{text}");
    assert!(text.matches("  triangles ").count() < 8, "{text}");
    let text = difference_of("stl", "StlNextTubesCorner", &folder("wrong-corner"));
    assert!(text.contains("expected 00000011 (17,"), "{text}");
    assert_eq!(text.matches("  triangles ").count(), 1, "{text}");
}

#[test]
fn a_wrong_reader_of_stl_is_caught_and_its_file_shrunk() {
    let text = difference_of("stl", "StlNormalsAsCorners", &folder("wrong-lists"));
    assert!(text.contains("first difference: corner floats"), "{text}");
    assert!(text.contains("a file of 134 bytes, T 1\n"), "{text}");
    let text = difference_of("stl", "StlEighteenFirst", &folder("wrong-order"));
    assert!(text.contains("expected 00000013 (19,"), "{text}");
    assert!(text.contains("a file of 84 bytes, T "), "{text}");
}

#[test]
fn a_wrong_party_is_caught_and_its_shares_shrunk() {
    let text = difference_of("parties", "PartyTouchingRefused", &folder("wrong-touch"));
    assert!(text.contains("expected 00000000 (0,"), "{text}");
    // Two shares of one place, the second behind the first, in one buffer; nothing in the others, no record and no atom.
    assert_eq!(text.matches(" 0 + 1").count(), 1, "{text}");
    assert_eq!(text.matches(" 1 + 1").count(), 1, "{text}");
    assert_eq!(text.matches(" 0 + 0").count(), 10, "{text}");
    assert!(text.contains("\n0 bytes of records\n"), "{text}");
    assert!(!text.contains("atom 0:"), "{text}");
    let text = difference_of("parties", "PartyWrittenAtZero", &folder("wrong-place"));
    assert!(text.contains("0 + 222") && text.contains("0 + 0"), "{text}");
    assert!(
        text.contains("atom 1:") && !text.contains("atom 2:"),
        "{text}"
    );
    let text = difference_of("parties", "PartyKindOfFirst", &folder("wrong-kind"));
    assert!(
        text.contains("record 1:") && !text.contains("record 2:"),
        "{text}"
    );
}

#[test]
fn a_program_that_ends_early_is_caught() {
    for program in [&["true"][..], &["echo", "no"]] {
        for kind in ["both", "stl", "parties"] {
            let output = compare(kind, program, "50", &folder("early"));
            assert_eq!(output.status.code(), Some(1), "{program:?}");
        }
    }
}

#[test]
fn answers_of_the_recorded_requests() {
    let (requests, answers) = record::files();
    let output = run(&["answer"], &requests);
    assert!(output.status.success());
    assert!(output.stdout == answers);
    // Input that ends inside a request ends the program after the answers before it.
    let cut = run(&["answer"], &requests[..requests.len() - 1]);
    assert!(cut.status.success());
    assert!(cut.stdout.len() < answers.len() && answers.starts_with(&cut.stdout));
}

/// A folder as `oracle record` leaves it, with these answers.
fn recorded(name: &str, requests: &[u8], answers: &[u8]) -> String {
    let folder = folder(name);
    fs::write(folder.join("requests.bin"), requests).unwrap();
    fs::write(folder.join("answers.bin"), answers).unwrap();
    folder.to_str().unwrap().to_string()
}

#[test]
fn what_two_recordings_differ_in() {
    let r = plan_request(&two_residues(), 0);
    let answers = encode_words(&answer(&r));
    let old = recorded("old", &r.encode(), &answers);
    let status_and_text = |new: &str| {
        let output = run(&["differences", &old, new], &[]);
        let text = String::from_utf8(output.stdout).unwrap();
        (output.status.code(), text)
    };
    // Words that differ are counted, and no failure.
    let mut other = answers.clone();
    other[36] ^= 1;
    let (status, text) = status_and_text(&recorded("other", &r.encode(), &other));
    assert_eq!(status, Some(0), "{text}");
    let row = "\nscratch words                16          1\n";
    assert!(text.contains(row), "{text}");
    // An answer of another kind, and another request, are.
    other[3] = 9;
    let (status, text) = status_and_text(&recorded("kind", &r.encode(), &other));
    assert_eq!(status, Some(1), "{text}");
    let next = plan_request(&two_residues(), 1).encode();
    let (status, text) = status_and_text(&recorded("request", &next, &answers));
    assert_eq!(status, Some(1), "{text}");
    assert!(text.starts_with("the requests differ"), "{text}");
    // No folder, no request, or a cut one: nothing could be compared.
    for requests in [&[][..], &r.encode()[1..]] {
        let (status, _) = status_and_text(&recorded("cut", requests, &answers));
        assert_eq!(status, Some(2));
    }
    assert_eq!(status_and_text("no-such-folder-at-all").0, Some(2));
}

#[test]
fn requests_that_are_passed_over() {
    let good = plan_request(&two_residues(), 0);
    let unknown = Request {
        call: 255,
        ..good.clone()
    };
    // Known, but these bytes are no mesh buffers.
    let no_mesh = Request {
        call: 5,
        ..good.clone()
    };
    let mut too_long = good.clone();
    too_long.lengths[6] = MOST[6] + 1;
    // A word is missing at the end of the triangles.
    let mut short = tube_request(2, 0, 432, 0);
    short.bytes.truncate(4 * 436);
    let input: Vec<u8> = [&unknown, &no_mesh, &too_long, &short, &good]
        .iter()
        .flat_map(|r| r.encode())
        .collect();
    let mut expected = vec![u32::MAX; 4];
    expected.extend(answer(&good));
    assert_eq!(run(&["answer"], &input).stdout, encode_words(&expected));
    assert_eq!(expected[4..8], [0, 1, 74, 144]);
}

#[test]
fn a_plan_in_words() {
    let output = run(&["plan-text"], &two_residues().bytes());
    assert_eq!(
        String::from_utf8(output.stdout).unwrap(),
        "tubes 1 vertices 74 triangles 144\ntube 0 kind 0 residue 0 length 2 vertex 0 triangle 0\n"
    );
    assert_eq!(run(&["plan-text"], &[]).stdout, b"refused 1 0\n");
}

#[test]
fn bad_command_lines() {
    let bad: &[&[&str]] = &[
        &[],
        &["dance"],
        &["compare"],
        &["compare", "--jobs", "1", "--"],
        &["compare", "--", "no-such-program-at-all"],
        &["compare", "--jobs", "many", "--", "true"],
        &["compare", "--jobs", "--", "true"],
        &["compare", "--kind", "tubes", "--", "true"],
        &["compare", "--kind", "party", "--", "true"],
        &["read-pdb", "no-such-file-at-all"],
        &["read-pdb", "a", "b"],
        &["answer", "--wrong", "Nothing"],
        &["record"],
        &["differences"],
        &["differences", "old"],
        &["differences", "old", "new", "newer"],
        &["plan-text", "file"],
        &["generate", "--job", "1"],
    ];
    for args in bad {
        let output = run(args, &[]);
        assert_eq!(output.status.code(), Some(2), "{args:?}");
        assert!(!output.stderr.is_empty(), "{args:?}");
    }
}
