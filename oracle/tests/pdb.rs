//! 02 §1, sentence by sentence: what each reading settles, on the smallest file that shows it.

use oracle::{
    generator::file_request,
    job::{RawJob, Refusal, decode},
    pdb::{job_of, read_pdb},
    protocol::{MOST_BYTES, READ, Request, TOO_LONG, answer, job_before},
};

/// An ATOM line of 80 columns with its fields as given; `residue` is chain, number and insertion code in columns 22 to 27.
fn atom(serial: &str, name: &str, residue: &str, xyz: [&str; 3]) -> String {
    assert!(serial.len() == 5 && name.len() == 4 && residue.len() == 6);
    let [x, y, z] = xyz;
    format!("ATOM  {serial} {name} GLY {residue}   {x:>8}{y:>8}{z:>8}  1.00 20.00           C  ")
}

fn at(serial: u32, name: &str, residue: &str) -> String {
    atom(
        &format!("{serial:>5}"),
        name,
        residue,
        ["1.000", "2.500", "-3.250"],
    )
}

fn helix(from: &str, to: &str) -> String {
    let (a, b) = (from.split_at(1), to.split_at(1));
    format!(
        "HELIX    1   1 GLY {} {} GLY {} {}  1                                   9",
        a.0, a.1, b.0, b.1
    )
}

fn sheet(from: &str, to: &str) -> String {
    format!("SHEET    1   A 2 GLY {from} GLY {to}  0")
}

fn file(lines: &[String]) -> Vec<u8> {
    lines
        .iter()
        .flat_map(|l| format!("{l}\n").into_bytes())
        .collect()
}

fn job(lines: &[String]) -> RawJob {
    job_of(&file(lines)).expect("a right file")
}

fn refusal(lines: &[String]) -> (u32, u32) {
    number(&file(lines)).expect("a refusal")
}

fn number(file: &[u8]) -> Option<(u32, u32)> {
    job_of(file).err().map(|r| (r.number, r.carried[0]))
}

/// Three residues, the second with insertion code A.
fn three() -> Vec<String> {
    vec![
        at(1, " N  ", "A   1 "),
        at(2, " CA ", "A   1 "),
        at(3, " CA ", "A   1A"),
        at(4, " O  ", "A   1A"),
        at(5, " CA ", "A   2 "),
        at(6, " O  ", "A   2 "),
    ]
}

fn with(first: String, mut rest: Vec<String>) -> Vec<String> {
    rest.insert(0, first);
    rest
}

fn segments(job: &RawJob) -> Vec<(u8, u32, u32)> {
    job.segments
        .iter()
        .map(|s| (s.kind, s.start, s.end))
        .collect()
}

fn residues(job: &RawJob) -> Vec<u16> {
    job.atoms.iter().map(|a| a.residue).collect()
}

#[test]
fn an_empty_file_gives_the_thirteen_byte_job() {
    for empty in [&b""[..], b"\n", b"REMARK", b"\r\n\r\n"] {
        assert_eq!(
            job_of(empty).unwrap().bytes(),
            [0, 0, 0, 9, 1, 0, 0, 0, 0, 0, 0, 0, 0]
        );
    }
}

#[test]
fn a_whole_job() {
    let bytes = job(&with(helix("A   1 ", "A   1A"), three())).bytes();
    assert_eq!(bytes.len(), 13 + 1 + 9 + 6 * 33);
    assert_eq!(
        bytes[..23],
        [
            0, 0, 0, 217, 1, 0, 1, 0, 3, 0, 1, 0, 6, 1, 1, 0, 0, 0, 1, 0, 0, 0, 4
        ]
    );
    // The second atom: serial 2, a C-alpha, residue 0, chain 0, and 1.0 as its x.
    assert_eq!(
        bytes[56..73],
        [0, 0, 0, 2, 1, 0, 0, 0, 0, 0x3F, 0xF0, 0, 0, 0, 0, 0, 0]
    );
    assert!(decode(&bytes).is_ok());
}

#[test]
fn names_need_all_six_bytes() {
    for other in [
        "ATOM", "ATOM 1", "HELIX", "SHEET", "atom  ", " ATOM  ", "ATOMS ", "HETATM", "SHEETS",
        "HELIX1",
    ] {
        assert_eq!(
            job(&with(other.to_string(), three())).atoms.len(),
            6,
            "{other}"
        );
    }
    for record in ["ATOM  ", "HELIX ", "SHEET "] {
        assert_eq!(
            refusal(&with(record.to_string(), three())),
            (12, 1),
            "{record}"
        );
    }
}

#[test]
fn reading_stops_at_endmdl() {
    let mut lines = three();
    lines.insert(2, "ENDMDL".to_string());
    // What follows is not read, right or wrong.
    lines.push("ATOM  ".to_string());
    lines.push(helix("Q   1 ", "Q   2 "));
    assert_eq!(job(&lines).atoms.len(), 2);
    lines[2] = "ENDMDL of 1".to_string();
    assert_eq!(job(&lines).atoms.len(), 2);
    for other in ["ENDMD", "endmdl", " ENDMDL", "END   "] {
        lines[2] = other.to_string();
        assert_eq!(refusal(&lines), (12, 8), "{other}");
    }
}

#[test]
fn reading_stops_at_a_second_model() {
    let mut lines = with("MODEL        1".to_string(), three());
    assert_eq!(job(&lines).atoms.len(), 6);
    lines.insert(3, "MODEL ".to_string());
    assert_eq!(job(&lines).atoms.len(), 2);
    // Five bytes are no name.
    lines[3] = "MODEL".to_string();
    assert_eq!(job(&lines).atoms.len(), 6);
}

#[test]
fn a_cr_before_lf_is_dropped_and_no_other() {
    let z = "ATOM      1  CA  GLY A   1       1.000   2.000   3.000";
    assert_eq!(z.len(), 54);
    assert_eq!(number(format!("{z}\r\n").as_bytes()), None);
    // One column short: the CR before LF is no column, a second CR is, and so is one at the end of the file.
    let short = &z[..53];
    assert_eq!(number(format!("{short}\r\n").as_bytes()), Some((12, 1)));
    assert_eq!(number(format!("{short}\r\r\n").as_bytes()), Some((13, 1)));
    assert_eq!(number(format!("{short}\r").as_bytes()), Some((13, 1)));
    assert_eq!(number(format!("{z}\r").as_bytes()), None);
    // A CR within a line is a byte as any other.
    assert_eq!(
        number(format!("{}\r{}\n", &z[..11], &z[12..]).as_bytes()),
        None
    );
}

#[test]
fn bytes_after_the_last_lf_are_a_line() {
    let mut whole = file(&three());
    assert_eq!(whole.pop(), Some(b'\n'));
    assert_eq!(job_of(&whole).unwrap().atoms.len(), 6);
    whole.truncate(whole.len() - 27);
    assert_eq!(number(&whole), Some((12, 6)));
}

#[test]
fn the_last_columns_read() {
    let cut = |line: &str, last: usize| {
        assert_eq!(
            refusal(&with(line[..last - 1].to_string(), three())),
            (12, 1)
        );
        job(&with(line[..last].to_string(), three()))
    };
    assert_eq!(cut(&at(9, " CA ", "A   2 "), 54).atoms.len(), 7);
    assert_eq!(cut(&helix("A   1 ", "A   2 "), 38).segments.len(), 1);
    assert_eq!(cut(&sheet("A   1 ", "A   2 "), 38).segments.len(), 1);
}

#[test]
fn stripped_blanks_make_a_line_too_short() {
    // A helix whose last column is the blank of 'no insertion code'.
    let line = helix("A   1 ", "A   2 ");
    assert_eq!(
        refusal(&with(line[..38].trim_end().to_string(), three())),
        (12, 1)
    );
}

#[test]
fn roles_go_by_four_bytes() {
    let role = |name| job(&[at(1, name, "A   1 ")]).atoms[0].role;
    assert_eq!(
        [" CA ", "CA  ", "  CA", " CA'", " ca "].map(role),
        [1, 0, 0, 0, 0]
    );
    assert_eq!(
        [" O  ", "O   ", "  O ", " OXT", " O1 "].map(role),
        [2, 0, 0, 0, 0]
    );
    assert_eq!([" N  ", "    ", "\tCA "].map(role), [0, 0, 0]);
}

#[test]
fn serials() {
    let serial = |s: &str| match job_of(&file(&[atom(s, " CA ", "A   1 ", ["1.000"; 3])])) {
        Ok(job) => Ok(job.atoms[0].serial),
        Err(r) => Err(r.number),
    };
    for (text, n) in [
        ("    0", 0),
        ("99999", 99_999),
        ("7    ", 7),
        ("  8  ", 8),
        ("00009", 9),
    ] {
        assert_eq!(serial(text), Ok(n), "'{text}'");
    }
    for bad in [
        "     ", "   -1", "   -0", "   +1", "  1 2", " 1.00", "A0000", "\t   1", "1\t   ", "1\0   ",
    ] {
        assert_eq!(serial(bad), Err(13), "'{bad}'");
    }
}

#[test]
fn sequence_numbers() {
    let bad = |s: &str| number(&file(&[at(1, " CA ", &format!("A{s} "))]));
    for right in ["   1", "1   ", " 1  ", "-999", "9999", "0000", "  -0"] {
        assert_eq!(bad(right), None, "'{right}'");
    }
    for wrong in [
        "    ", "   -", " - 1", "--1 ", "  +1", " 1 1", " 1.0", "  1A", "\t  1",
    ] {
        assert_eq!(bad(wrong), Some((13, 1)), "'{wrong}'");
    }
}

#[test]
fn coordinates() {
    let x = |s: &str| match job_of(&file(&[atom(
        "    1",
        " CA ",
        "A   1 ",
        [s, "0.000", "0.000"],
    )])) {
        Ok(job) => Ok(job.atoms[0].xyz[0].to_bits()),
        Err(r) => Err(r.number),
    };
    let right: [(&str, f64); 10] = [
        ("9999.999", 9999.999),
        ("-999.999", -999.999),
        ("0.001", 0.001),
        ("-0.001", -0.001),
        ("1.100 ", 1.1),
        ("  2.001 ", 2.001),
        ("0012.345", 12.345),
        ("-0.000", 0.0),
        ("-000.000", 0.0),
        ("0.000", 0.0),
    ];
    for (text, value) in right {
        assert_eq!(x(text), Ok(value.to_bits()), "'{text}'");
    }
    let wrong = [
        "", "1", "1.0", "1.00", "1.0000", "2.0010", ".500", "-.500", "-", ".", "1,000", "1.-00",
        "+1.000", "--1.000", "- 1.000", "1. 000", "1.0e3", "1000", "1.000.", "\t1.000", "1.000\t",
        "nan",
    ];
    for text in wrong {
        assert_eq!(x(text), Err(13), "'{text}'");
    }
}

#[test]
fn thousandths_are_divided_once() {
    // 0.009 is not 9 times 0.001 in f64.
    let job = job(&[atom("    1", " CA ", "A   1 ", ["0.009", "0.035", "1.001"])]);
    assert_eq!(
        job.atoms[0].xyz.map(f64::to_bits),
        [0.009f64, 0.035, 1.001].map(f64::to_bits)
    );
    assert_ne!(job.atoms[0].xyz[0].to_bits(), (9.0f64 * 0.001).to_bits());
}

#[test]
fn residues_by_value_and_insertion_code() {
    let names = [
        "A   1 ", "A1    ", "A0001 ", "A   1A", "A   1a", "B   1 ", "A  -0 ", "A   0 ", "A   1 ",
    ];
    let lines: Vec<String> = names.iter().map(|n| at(1, " CA ", n)).collect();
    let job = job(&lines);
    assert_eq!(residues(&job), [0, 0, 0, 1, 2, 3, 4, 4, 0]);
    assert_eq!(job.residues, 5);
    assert_eq!(job.visible, [1, 1]);
}

#[test]
fn chains_by_first_appearance() {
    let chains = ["B", " ", "b", "B", "\r", "0", " "];
    let lines: Vec<String> = chains
        .iter()
        .map(|c| at(1, " CA ", &format!("{c}   1 ")))
        .collect();
    let job = job(&lines);
    let numbers: Vec<u16> = job.atoms.iter().map(|a| a.chain).collect();
    assert_eq!(numbers, [0, 1, 2, 0, 3, 4, 1]);
    assert_eq!(job.visible, [1; 5]);
}

#[test]
fn segments_run_from_a_first_atom_to_a_last() {
    // Residue 1 comes again after residue 2, and its serials do not ascend.
    let mut lines = three();
    lines.push(at(70, " C  ", "A   1 "));
    lines.push(at(7, " C  ", "A   1 "));
    let of = |line: String| segments(&job(&with(line, lines.clone())));
    assert_eq!(of(helix("A   1 ", "A   2 ")), [(1, 1, 6)]);
    assert_eq!(of(helix("A   1 ", "A   1 ")), [(1, 1, 7)]);
    assert_eq!(of(sheet("A   2 ", "A   1 ")), [(2, 5, 7)]);
    assert_eq!(of(sheet("A   1A", "A   1A")), [(2, 3, 4)]);
    // Start above end is a segment with no atoms, not a fault.
    assert_eq!(of(helix("A   2 ", "A   1A")), [(1, 5, 4)]);
}

#[test]
fn segments_in_file_order_wherever_they_stand() {
    let mut lines = with(sheet("A   2 ", "A   2 "), three());
    lines.insert(3, helix("A   1 ", "A   1 "));
    lines.push(sheet("A   1A", "A   2 "));
    assert_eq!(segments(&job(&lines)), [(2, 5, 6), (1, 1, 2), (2, 3, 6)]);
}

#[test]
fn columns_of_helix_and_sheet() {
    let line = helix("A   1 ", "B  -2C");
    assert_eq!(
        (&line[19..20], &line[21..26], &line[31..32], &line[33..38]),
        ("A", "   1 ", "B", "  -2C")
    );
    let line = sheet("A   1 ", "B  -2C");
    assert_eq!((&line[21..27], &line[32..38]), ("A   1 ", "B  -2C"));
    let atoms = vec![at(1, " CA ", "A   1 "), at(2, " CA ", "B  -2C")];
    for line in [helix("A   1 ", "B  -2C"), sheet("A   1 ", "B  -2C")] {
        let read = segments(&job(&with(line.clone(), atoms.clone())));
        assert_eq!((read[0].1, read[0].2), (1, 2), "{line}");
        // The columns before the first name and between the two are not read.
        let noise = line
            .replace("GLY", "\0-.")
            .replace("   1   1 ", "x-.y ??  ");
        assert_eq!(segments(&job(&with(noise, atoms.clone()))), read);
    }
}

#[test]
fn a_segment_of_an_absent_residue() {
    let absent = ["B   1 ", "A   3 ", "A   1B", "A   2A"];
    for name in absent {
        for line in [
            helix(name, "A   1 "),
            helix("A   1 ", name),
            sheet(name, "A   1 "),
            sheet("A   1 ", name),
        ] {
            assert_eq!(refusal(&with(line.clone(), three())), (14, 1), "{line}");
        }
    }
    assert_eq!(refusal(&[helix("A   1 ", "A   1 ")]), (14, 1));
}

#[test]
fn an_atom_at_fault_does_not_make_its_residue_present() {
    let bad = atom("    9", " CA ", "B   7 ", ["1.000", "x", "1.000"]);
    let lines = vec![
        helix("A   1 ", "B   7 "),
        at(1, " CA ", "A   1 "),
        bad.clone(),
    ];
    assert_eq!(refusal(&lines), (14, 1));
    assert_eq!(refusal(&lines[1..]), (13, 2));
    // Another atom of it does.
    assert_eq!(
        refusal(&[
            lines[0].clone(),
            lines[1].clone(),
            bad,
            at(8, " O  ", "B   7 ")
        ]),
        (13, 3)
    );
}

#[test]
fn the_first_line_at_fault_decides() {
    let short = || "ATOM  ".to_string();
    let bad = || at(1, " CA ", "A   - ");
    let absent = || helix("Q   1 ", "A   1 ");
    let faults: [(u32, &dyn Fn() -> String); 3] = [(12, &short), (13, &bad), (14, &absent)];
    for (number, first) in faults {
        for (_, second) in faults {
            let mut lines = three();
            lines.insert(4, second());
            lines.insert(2, first());
            assert_eq!(refusal(&lines), (number, 3));
        }
    }
}

#[test]
fn lowest_first_within_a_line() {
    // Too short and with a bad number: 12. Long enough, with a bad number and an absent residue: 13.
    let line = helix("Q   x ", "Q   y ");
    assert_eq!(refusal(&with(line[..37].to_string(), three())), (12, 1));
    assert_eq!(refusal(&with(line, three())), (13, 1));
    assert_eq!(refusal(&with(helix("Q   1 ", "A   y "), three())), (13, 1));
    let line = at(1, " CA ", "A   - ");
    assert_eq!(refusal(&with(line[..53].to_string(), three())), (12, 1));
}

#[test]
fn lines_are_counted_from_1_whatever_they_are() {
    let mut lines = vec![
        "REMARK".to_string(),
        String::new(),
        "MODEL        1".to_string(),
    ];
    lines.push("ATOM  ".to_string());
    assert_eq!(refusal(&lines), (12, 4));
}

/// So many lines, each made from its number.
fn many(count: usize, line: impl Fn(usize) -> String) -> Vec<u8> {
    let lines: Vec<String> = (0..count).map(line).collect();
    file(&lines)
}

#[test]
fn residues_past_their_limit() {
    let line = |i: usize| {
        at(
            1,
            " CA ",
            &format!("{}{:>4} ", (b'A' + (i / 9000) as u8) as char, i % 9000),
        )
    };
    let most = many(16_384, line);
    assert_eq!(job_of(&most).unwrap().residues, 16_384);
    assert!(decode(&job_of(&most).unwrap().bytes()).is_ok());
    assert_eq!(number(&many(16_385, line)), Some((15, 0)));
    // A fault anywhere comes before it, and 16 after it.
    let mut faulty = many(16_385, line);
    faulty.extend(b"ATOM  \n");
    assert_eq!(number(&faulty), Some((12, 16_386)));
    assert_eq!(
        read_pdb(&many(16_385, line), &mut []),
        Err(Refusal::new(15, 0))
    );
}

#[test]
fn atoms_past_their_limit() {
    let line = |_| at(1, " CA ", "A   1 ");
    assert_eq!(job_of(&many(65_535, line)).unwrap().atoms.len(), 65_535);
    assert_eq!(number(&many(65_536, line)), Some((15, 0)));
}

#[test]
fn segments_past_their_limit() {
    let line = |i| {
        if i == 0 {
            at(1, " CA ", "A   1 ")
        } else {
            sheet("A   1 ", "A   1 ")
        }
    };
    assert_eq!(job_of(&many(65_536, line)).unwrap().segments.len(), 65_535);
    assert_eq!(number(&many(65_537, line)), Some((15, 0)));
}

#[test]
fn chains_never_pass_their_limit() {
    // A column can hold every byte but LF: 255 letters, which is the limit.
    let mut bytes = Vec::new();
    for chain in 0..=255u8 {
        let mut line = at(1, " CA ", "A   1 ").into_bytes();
        line[21] = chain;
        if chain != b'\n' {
            bytes.extend(line);
            bytes.push(b'\n');
        }
    }
    let job = job_of(&bytes).unwrap();
    assert_eq!((job.visible.len(), job.residues), (255, 255));
    assert!(decode(&job.bytes()).is_ok());
}

#[test]
fn room_for_the_job() {
    let bytes = file(&three());
    let size = 13 + 1 + 6 * 33;
    let mut lent = job_before(size + 5);
    assert_eq!(read_pdb(&bytes, &mut lent), Ok(size));
    assert_eq!(lent[..size as usize], job_of(&bytes).unwrap().bytes());
    assert_eq!(lent[size as usize..], job_before(size + 5)[size as usize..]);
    assert_eq!(read_pdb(&bytes, &mut job_before(size)), Ok(size));
    for room in [size - 1, 13, 1, 0] {
        let mut lent = job_before(room);
        assert_eq!(read_pdb(&bytes, &mut lent), Err(Refusal::new(16, size)));
        assert_eq!(lent, job_before(room));
    }
    assert_eq!(read_pdb(b"", &mut []), Err(Refusal::new(16, 13)));
}

/// A program has room for 1,048,576 lent bytes, so that the job of every file it takes fits.
#[test]
fn lent_bytes_at_their_limit() {
    let lent = |n: usize| {
        answer(&Request {
            call: READ,
            lengths: [n as u32, 0, 0, 0, 0, 0, 0, 0],
            k: 0,
            bytes: file(&three()),
        })
    };
    assert_eq!(lent(MOST_BYTES)[..4], [0, 13 + 1 + 6 * 33, 0, 0]);
    assert_eq!(lent(MOST_BYTES).len(), 4 + MOST_BYTES);
    assert_eq!(lent(MOST_BYTES + 1), [TOO_LONG]);
}

#[test]
fn generated_files_give_every_answer_and_jobs_that_pass() {
    let mut seen = [0; 17];
    for i in 0..6000 {
        let r = file_request(23, i);
        let a = answer(&r);
        if r.lengths[0] as usize > MOST_BYTES {
            assert_eq!(a, [TOO_LONG]);
            continue;
        }
        seen[a[0] as usize] += 1;
        assert_eq!(a[2..4], [0, 0]);
        let lent: Vec<u8> = a[4..].iter().map(|&b| b as u8).collect();
        let written = if a[0] == 0 { a[1] as usize } else { 0 };
        let before = job_before(r.lengths[0]);
        assert_eq!(lent[written..], before[written..], "file {i}");
        if a[0] == 0 {
            // What the reader accepts the builder does not refuse before check 9.
            assert!(decode(&lent[..written]).is_ok(), "file {i}");
        }
    }
    assert!(
        [0, 12, 13, 14, 15, 16].iter().all(|&n| seen[n] > 0),
        "answers of each kind: {seen:?}"
    );
    assert!(
        [0, 12, 13, 14, 16].iter().all(|&n| seen[n] > 200),
        "answers of each kind: {seen:?}"
    );
}
