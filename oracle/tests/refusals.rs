//! Refusals 1 to 11: their order, what they carry, and what each call leaves in the lent buffers.

mod common;

use common::{build_in, fitting};
use oracle::{
    calls::plan,
    cases::{at_vertex_limit, six_residues},
    generator::request,
    job::{NONE, RawJob, Refusal, decode, fix_length},
    protocol::{BUILD, MOST, PLAN, answer, places},
};

/// Six residues with faults of every number from `from` to 8 at once, each at its own place.
fn faults_from(from: u32) -> RawJob {
    let mut job = six_residues();
    job.visible.push(1);
    job.segments.push(job.segments[0].clone());
    let mut at = |number: u32, fault: &mut dyn FnMut(&mut RawJob)| {
        if number >= from {
            fault(&mut job);
        }
    };
    at(2, &mut |j| j.version = 9);
    at(3, &mut |j| j.residues = 16_385);
    at(5, &mut |j| j.visible[1] = 2);
    at(6, &mut |j| j.segments[1].kind = 3);
    at(7, &mut |j| j.atoms[5].role = 3);
    at(8, &mut |j| j.atoms[4].xyz[2] = 1e9);
    job
}

#[test]
fn the_lowest_number_is_given() {
    let number = |b: &[u8]| decode(b).err().map(|r| (r.number, r.carried[0]));
    let mut b = faults_from(2).bytes();
    assert_eq!(number(&b), Some((2, 9)));
    b[0] = 1;
    assert_eq!(number(&b), Some((1, 0)));
    // A byte more makes the size differ from the counts, which is checked after 3.
    let longer = |from| {
        let mut b = faults_from(from).bytes();
        b.push(0);
        fix_length(&mut b);
        b
    };
    assert_eq!(number(&longer(2)), Some((2, 9)));
    assert_eq!(number(&longer(3)), Some((3, 0)));
    assert_eq!(number(&longer(4)), Some((4, 0)));
    assert_eq!(number(&faults_from(4).bytes()), Some((5, 1)));
    assert_eq!(number(&faults_from(6).bytes()), Some((6, 1)));
    assert_eq!(number(&faults_from(7).bytes()), Some((7, 5)));
    assert_eq!(number(&faults_from(8).bytes()), Some((8, 4)));
    assert_eq!(number(&faults_from(9).bytes()), None);
}

#[test]
fn under_thirteen_bytes() {
    let whole = RawJob::default().bytes();
    for n in 0..13 {
        let mut b = whole[..n].to_vec();
        fix_length(&mut b);
        assert_eq!(decode(&b).err(), Some(Refusal::new(1, 0)), "{n} bytes");
    }
    assert!(decode(&whole).is_ok());
}

#[test]
fn counts_at_their_limits() {
    let job = |chains, residues| RawJob {
        residues,
        visible: vec![1; chains],
        ..RawJob::default()
    };
    let number = |j: RawJob| decode(&j.bytes()).err().map(|r| r.number);
    assert_eq!(number(job(255, 16_384)), None);
    assert_eq!(number(job(256, 0)), Some(3));
    assert_eq!(number(job(0, 16_385)), Some(3));
}

#[test]
fn indices_of_atoms() {
    let with = |residue, chain| {
        let mut job = six_residues();
        job.atoms[3].residue = residue;
        job.atoms[3].chain = chain;
        decode(&job.bytes()).err()
    };
    let seven = Some(Refusal::new(7, 3));
    assert_eq!(with(5, 0), None);
    assert_eq!(with(NONE, NONE), None);
    assert_eq!(with(6, 0), seven);
    assert_eq!(with(NONE - 1, 0), seven);
    assert_eq!(with(0, 1), seven);
    assert_eq!(with(0, NONE - 1), seven);
}

#[test]
fn each_buffer_is_needed_whole() {
    let bytes = six_residues().bytes();
    let fit = fitting(&bytes);
    assert!(build_in(&bytes, fit).0.is_ok());
    for i in 0..8 {
        let mut short = fit;
        short[i] -= 1;
        let number = build_in(&bytes, short).0.unwrap_err().number;
        assert_eq!(number, if i < 6 { 11 } else { 9 }, "buffer {i}");
    }
    // 9 comes before 10 and 11.
    let mut none = [0; 8];
    assert_eq!(build_in(&bytes, none).0, Err(Refusal::new(9, 0)));
    let many = at_vertex_limit(2);
    none[6] = 8 * 64;
    none[7] = 32 * 64;
    assert_eq!(build_in(&many.bytes(), none).0, Err(Refusal::new(10, 0)));
}

#[test]
fn refusals_past_nine_clear_the_scratch_they_need() {
    let many = at_vertex_limit(2).bytes();
    let (r, b) = build_in(&many, [1, 1, 1, 1, 1, 1, 8 * 64 + 2, 32 * 64 + 2]);
    assert_eq!(r.unwrap_err().number, 10);
    assert!(b.words[..8 * 64].iter().all(|&w| w == 0));
    assert_eq!(b.words[8 * 64..], [0xC0DE_0200, 0xC0DE_0201]);
    assert!(b.floats[..32 * 64].iter().all(|f| f.to_bits() == 0));
    assert_eq!(b.floats[32 * 64].to_bits(), 0x4000_0800);
    let mut words = vec![7; 8 * 64 - 1];
    let mut floats = vec![7.0; 32 * 64];
    assert_eq!(
        plan(&many, 0, &mut words, &mut floats),
        Err(Refusal::new(9, 0))
    );
    assert!(words.iter().all(|&w| w == 7) && floats.iter().all(|&f| f == 7.0));
}

/// What a place holds before the call.
fn before(floats: bool, i: usize) -> u32 {
    let first: u32 = if floats { 0x4000_0000 } else { 0xC0DE_0000 };
    first + (i % 65536) as u32
}

#[test]
fn what_calls_leave_in_buffers() {
    let mut seen = [0; 12];
    for i in 0..20_000 {
        let r = request(11, i);
        if r.call != BUILD && r.call != PLAN || r.lengths.iter().zip(MOST).any(|(&l, m)| l > m) {
            continue;
        }
        let a = answer(&r);
        seen[a[0] as usize] += 1;
        let residues = if matches!(a[0], 0 | 10 | 11) {
            u16::from_be_bytes([r.bytes[7], r.bytes[8]]) as usize
        } else {
            0
        };
        let [k, v, t] = [a[1] as usize, a[2] as usize, a[3] as usize];
        for (name, range) in places(&r, a.len()) {
            let (floats, written) = match name {
                "positions" | "normals" => (true, 3 * v),
                "tags" => (false, v),
                "triangles" => (false, 3 * t),
                "tubes" => (false, 5 * k),
                "boxes" => (true, 6 * k),
                "scratch words" => (false, 8 * residues),
                "scratch floats" => (true, 32 * residues),
                _ => continue,
            };
            let scratch = name.starts_with("scratch");
            let written = if a[0] != 0 && !scratch { 0 } else { written };
            let place = &a[range];
            assert!(written <= place.len());
            if scratch {
                assert!(
                    place[..written].iter().all(|&w| w == 0),
                    "request {i}: {name}"
                );
            }
            let kept = (written..place.len()).all(|j| place[j] == before(floats, j));
            assert!(kept, "request {i}: {name} past what is written");
        }
    }
    assert!(
        seen.iter().all(|&n| n > 5),
        "answers of each kind: {seen:?}"
    );
}
