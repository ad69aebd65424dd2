//! `oracle ribbon` and `oracle compare-ribbon` as they are run: what is written and told, how they end, that the files show what they are made for,
//! and that the comparison catches each mistake.

use std::{
    fs,
    io::Write,
    path::{Path, PathBuf},
    process::{Command, Output, Stdio},
};

use oracle::{
    pdb::names_of,
    ribbon::{End, ribbon, thousandths},
    ribbon_files::{SMALL_FILE, SMALL_RESIDUES, SMALL_VERTICES, case},
    stand_ins::Vec3F32,
    stl::{facet_normal, read_stl},
    wrong::Mutation,
};

const ORACLE: &str = env!("CARGO_BIN_EXE_oracle");
const SIX: &str = concat!(env!("CARGO_MANIFEST_DIR"), "/../examples/six-residues.pdb");
const FILES: u64 = 300;

fn run(args: &[&str], input: &[u8]) -> Output {
    let mut child = Command::new(ORACLE)
        .args(args)
        .stdin(Stdio::piped())
        .stdout(Stdio::piped())
        .stderr(Stdio::piped())
        .spawn()
        .unwrap();
    let mut stdin = child.stdin.take().unwrap();
    let input = input.to_vec();
    // The program may end before it has read everything.
    let writer = std::thread::spawn(move || drop(stdin.write_all(&input)));
    let output = child.wait_with_output().unwrap();
    writer.join().unwrap();
    output
}

fn folder(name: &str) -> PathBuf {
    let folder = PathBuf::from(env!("CARGO_TARGET_TMPDIR")).join(name);
    let _ = fs::remove_dir_all(&folder);
    fs::create_dir_all(&folder).unwrap();
    folder
}

// ── ribbon ────────────────────────────────────────────────────────────────────

#[test]
fn a_file_written() {
    let six = fs::read(SIX).unwrap();
    let named = run(&["ribbon", SIX], &[]);
    assert_eq!(named.status.code(), Some(0));
    assert_eq!(named.stdout.len(), 84 + 50 * 688);
    let told = "read: chains 1 residues 6 atoms 12 helices 1 strands 0\n\
                built: tubes 3 vertices 350 triangles 688, closed: proved\nwritten: 34484 bytes\n";
    assert_eq!(String::from_utf8(named.stderr).unwrap(), told);
    for args in [
        &["ribbon"][..],
        &["ribbon", "-"],
        &["ribbon", "--scale", "1.000"],
    ] {
        assert_eq!(run(args, &six).stdout, named.stdout, "{args:?}");
    }
}

/// Corners are those of scale 1 times the factor, and a facet's normal is that of its own corners.
#[test]
fn a_scaled_file() {
    let six = fs::read(SIX).unwrap();
    let listed = |scale: &str| {
        let file = run(&["ribbon", "--scale", scale], &six).stdout;
        let (mut corners, mut normals) = (vec![0.0; 9 * 688], vec![0.0; 3 * 688]);
        assert_eq!(read_stl(&file, &mut corners, &mut normals), Ok(688));
        (corners, normals)
    };
    let (plain, _) = listed("1");
    for (scale, k) in [
        ("2", 2.0),
        ("0.001", 0.001),
        ("1000", 1000.0),
        ("2.5", 2.5),
        ("0.7", 0.7),
    ] {
        let (corners, normals) = listed(scale);
        for (x, y) in plain.iter().zip(&corners) {
            assert_eq!((x * k).to_bits(), y.to_bits());
        }
        for (own, normal) in corners.chunks(9).zip(normals.chunks(3)) {
            let corner = |i: usize| Vec3F32::new(own[i], own[i + 1], own[i + 2]);
            assert_eq!(
                facet_normal([corner(0), corner(3), corner(6)]).to_arr(),
                normal
            );
        }
    }
}

#[test]
fn refusals_and_nothing() {
    let line = b"ATOM      1  CA  GLY A   1       1.000   2.000   3.000";
    let refused = run(&["ribbon"], &line[..53]);
    assert_eq!(refused.status.code(), Some(1));
    assert_eq!(refused.stderr, b"refused 12 1\n");
    assert!(refused.stdout.is_empty());
    for file in [&line[..], b"", b"END\n"] {
        let nothing = run(&["ribbon", "--scale", "2"], file);
        assert_eq!(nothing.status.code(), Some(1));
        let text = String::from_utf8(nothing.stderr).unwrap();
        let lines: Vec<&str> = text.lines().collect();
        assert!(
            lines.len() == 2 && lines[0].starts_with("read: chains "),
            "{text}"
        );
        assert!(lines[1].starts_with("nothing to build: "), "{text}");
        assert!(nothing.stdout.is_empty());
    }
}

#[test]
fn wrong_usage_and_failed_reads_and_writes() {
    let bad: &[&[&str]] = &[
        &["ribbon", "--scale", "0"],
        &["ribbon", "--scale", "1.2345"],
        &["ribbon", "--scale", ""],
        &["ribbon", "--scale"],
        &["ribbon", "--wrong", "Nothing"],
        &["ribbon", "one", "two"],
        &["ribbon", "--size", "2"],
        &["ribbon", "no-such-file-at-all"],
        &["ribbon", env!("CARGO_MANIFEST_DIR")],
        &["compare-ribbon"],
        &["compare-ribbon", "--"],
        &["compare-ribbon", "--files", "many", "--", "true"],
        &["compare-ribbon", "--room", "tiny", "--", "true"],
        &["compare-ribbon", "--", "no-such-program-at-all"],
    ];
    for args in bad {
        let output = run(args, &[]);
        assert_eq!(output.status.code(), Some(2), "{args:?}");
        assert!(
            output.stdout.is_empty() && !output.stderr.is_empty(),
            "{args:?}"
        );
    }
    let full = fs::OpenOptions::new()
        .write(true)
        .open("/dev/full")
        .unwrap();
    let status = Command::new(ORACLE)
        .args(["ribbon", SIX])
        .stdout(full)
        .stderr(Stdio::null())
        .status();
    assert_eq!(status.unwrap().code(), Some(2));
}

// ── The files ─────────────────────────────────────────────────────────────────

/// What a file with a right scale ends in.
struct Ended {
    end: End,
    lines: Vec<String>,
    scaled: bool,
    bytes: usize,
    residues: usize,
}

fn ended(index: u64) -> Option<Ended> {
    let c = case(1, index);
    let m = thousandths(c.scale.as_deref().unwrap_or("1"))?;
    let outcome = ribbon(&c.file, m);
    Some(Ended {
        end: outcome.end,
        lines: outcome.lines,
        scaled: m != 1000,
        bytes: c.file.len(),
        residues: names_of(&c.file).len(),
    })
}

/// Of 300 files most are meshes, with breaks, residues alone and scales, and each edge is where it should be.
#[test]
fn what_the_files_show() {
    let all: Vec<Ended> = (0..FILES).filter_map(ended).collect();
    let count = |shows: &dyn Fn(&Ended) -> bool| all.iter().filter(|e| shows(e)).count();
    let written = |e: &Ended| matches!(e.end, End::Written(_));
    let told = |word: &str| count(&|e| written(e) && e.lines.iter().any(|l| l.starts_with(word)));
    let refused = |n: u32| count(&|e| matches!(e.end, End::Refused(r) if r.number == n));
    let vertices = |v: u32| count(&|e| matches!(e.end, End::Written(c) if c.v == v));
    assert_eq!(FILES as usize - all.len(), 30, "wrong usages");
    assert!(count(&|e| e.scaled && written(e)) >= 40, "scaled");
    assert!(count(&written) >= 150, "meshes");
    assert!(count(&|e| e.end == End::Nothing) >= 20, "nothing to build");
    for (word, least) in [
        ("break: chain", 60),
        ("break: and", 5),
        ("alone: chain", 60),
        ("alone: and", 5),
        ("break: chain (blank)", 2),
        ("break: chain ?", 2),
        ("alone: chain ?", 2),
    ] {
        assert!(told(word) >= least, "{word}: {}", told(word));
    }
    for number in [10, 12, 13, 14, 15] {
        assert!(refused(number) > 0, "refusal {number}");
    }
    assert_eq!(vertices(SMALL_VERTICES), 1);
    assert_eq!(vertices(SMALL_VERTICES + 64), 1);
    assert_eq!(vertices(1_048_468), 1, "16,384 residues in two chains");
    for more in [0, 1] {
        let residues = count(&|e| e.residues == SMALL_RESIDUES + more && written(e));
        assert!(residues > 0, "{more} residues past the small room");
        let bytes = count(&|e| e.bytes == SMALL_FILE + more && written(e));
        assert!(bytes > 0, "{more} bytes past the small room");
    }
}

#[test]
fn the_same_seed_gives_the_same_files() {
    let same = |a: (u64, u64), b: (u64, u64)| {
        let (a, b) = (case(a.0, a.1), case(b.0, b.1));
        a.file == b.file && a.scale == b.scale
    };
    assert!((0..30).all(|i| same((5, i), (5, i))));
    assert!(!(0..30).any(|i| same((5, i), (6, i)) && case(5, i).file.len() > 200));
}

// ── compare-ribbon ────────────────────────────────────────────────────────────

fn compare(options: &[&str], out: &Path, command: &[&str]) -> Output {
    let out = ["--out", out.to_str().unwrap()];
    run(
        &[&["compare-ribbon"], options, &out, &["--"], command].concat(),
        &[],
    )
}

/// The two files of a difference, which are the only ones there.
fn difference(folder: &Path) -> (String, String) {
    let mut names: Vec<PathBuf> = fs::read_dir(folder)
        .unwrap()
        .map(|e| e.unwrap().path())
        .collect();
    names.sort();
    let [pdb, txt] = &names[..] else {
        panic!("{names:?}");
    };
    let name = pdb.file_name().unwrap().to_str().unwrap().to_string();
    assert!(
        name.starts_with("ribbon-") && name.ends_with(".pdb"),
        "{name}"
    );
    assert_eq!(txt, &pdb.with_extension("txt"));
    (name, fs::read_to_string(txt).unwrap())
}

#[test]
fn the_oracle_equals_itself() {
    let at = folder("ribbon-itself");
    let output = compare(&["--files", "300", "--seed", "1"], &at, &[ORACLE, "ribbon"]);
    let text = String::from_utf8(output.stdout).unwrap();
    assert!(output.status.success(), "{text}");
    assert!(
        text.contains("all 300 files are alike") && text.contains("seed 1: meshes "),
        "{text}"
    );
    assert_eq!(fs::read_dir(&at).unwrap().count(), 0);
}

/// Each within the 300 files of seed 1, which the test command runs.
#[test]
fn each_mistake_is_caught() {
    let about = |m: &&Mutation| m.name().starts_with("Ribbon");
    let mistakes: Vec<&Mutation> = Mutation::ALL.iter().filter(about).collect();
    assert!(mistakes.len() >= 18);
    for m in mistakes {
        let at = folder(&format!("wrong-{}", m.name()));
        let wrong = [ORACLE, "ribbon", "--wrong", m.name()];
        let output = compare(&["--files", "300", "--seed", "1"], &at, &wrong);
        assert_eq!(output.status.code(), Some(1), "{}", m.what());
        let (name, text) = difference(&at);
        assert!(text.contains("expected"), "{text}");
        // What was written shows the mistake by itself.
        let index = name["ribbon-1-".len()..name.len() - 4].parse().unwrap();
        assert_eq!(fs::read(at.join(&name)).unwrap(), case(1, index).file);
    }
}

/// Mistakes of the mesh and of STL show through the whole of the command too.
#[test]
fn mistakes_below_it_are_caught() {
    for name in [
        "CutAtFive",
        "StlTurnedOutward",
        "CalciumIsCa",
        "SheetEndsSmoothed",
    ] {
        let at = folder(&format!("wrong-{name}"));
        let wrong = [ORACLE, "ribbon", "--wrong", name];
        let output = compare(&["--seed", "1"], &at, &wrong);
        assert_eq!(output.status.code(), Some(1), "{name}");
    }
}

#[test]
fn a_command_that_hangs_or_says_nothing() {
    let at = folder("ribbon-hangs");
    // A wrapper, whose program holds the pipes.
    let hangs = ["sh", "-c", "sleep 600; exit 0"];
    let output = compare(&["--files", "1", "--wait", "1"], &at, &hangs);
    assert_eq!(output.status.code(), Some(1));
    assert!(difference(&at).1.contains("it did not end within 1 s"));
    for (name, command, says) in [
        ("true", "exit 0", "standard output has 0 bytes"),
        ("signal", "kill -KILL $$", "exit status a signal"),
    ] {
        let at = folder(&format!("ribbon-{name}"));
        let output = compare(&["--files", "300"], &at, &["sh", "-c", command]);
        assert_eq!(output.status.code(), Some(1), "{name}");
        let text = difference(&at).1;
        assert!(text.contains(says), "{text}");
    }
}

/// In the small room what does not fit must be refused; the oracle refuses nothing for want of room, and is caught.
#[test]
fn the_small_room() {
    let at = folder("ribbon-small");
    let output = compare(
        &["--room", "small", "--seed", "1"],
        &at,
        &[ORACLE, "ribbon"],
    );
    assert_eq!(output.status.code(), Some(1));
    let (name, text) = difference(&at);
    assert!(text.contains("exit status 0, 1 expected"), "{text}");
    let index = name["ribbon-1-".len()..name.len() - 4].parse().unwrap();
    let c = ribbon(&case(1, index).file, 1000);
    assert!(
        matches!(c.end, End::Written(counts) if counts.v > SMALL_VERTICES),
        "{name}"
    );
}
