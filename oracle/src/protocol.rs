//! The stream protocol of the batch program: requests and answers as bytes, what the lent buffers hold before a call, and the oracle's
//! own answer to a request. All numbers are big-endian.
//!
//! Request: u8 call (1 build, 2 plan, 3 tube, 4 read PDB, 5 write STL, 6 read STL, 7 one party's build, 8 one party's plan); eight u32 lengths in
//! places (positions, normals, tags, triangles, tubes, boxes, scratch words, scratch floats); u32 k; u32 L; L bytes: the job, for call 3 the tube
//! buffer and then the triangle buffer, for calls 4 and 6 the file, for call 5 u32 K, V, T and then the contents of the six mesh buffers, four bytes
//! a place (a NaN word of any kind is a NaN). For call 7 twelve u32 of party 0 (start and length of its share of positions, normals, tags, triangles,
//! tubes, boxes), twelve of party 1, u32 M, the calling party's M bytes of records, then the job; the lengths are those of the whole buffers, k is
//! the calling party, 0 or 1. For call 8 u32 M, the party's M bytes of records, then the job; k is the tube. Call 4 has the length of the lent job bytes in the place of positions, call 5 that of the lent STL bytes in the place of
//! scratch words, call 6 those of the lent corner and normal floats in the places of positions and normals. Whatever else stands in the lengths and
//! in k of calls 4 to 6 is not looked at.
//! Answer to 1 and 7: number (0: a mesh), three words (K, V, T or the carried values), every place of the eight buffers. To 2 and 8: the same four
//! words, tube k's five words, the two scratch buffers. To 3: the length of the part, then its words. To 4: number (0: a job), its size or the
//! carried value, 0, 0, and every lent byte. To 5: the same with the file's size, and every lent byte. To 6: number (0: listed), T or the carried
//! value, 0, 0, every corner float and every normal float. Words are four bytes each, but lent bytes are one. `TOO_LONG` alone answers an
//! unknown call, a request past the program's arrays, a call 3 or 5 whose bytes are not those of its lengths, a call 7 of a party that is neither 0
//! nor 1, and a call 7 or 8 whose bytes end before its records do.

use std::io::{self, Read};

use crate::{
    calls::{self, Buffers, Counts},
    job::Refusal,
    parties::{Share, Shares, build_share, plan_records},
    pdb, stl,
};

pub const BUILD: u8 = 1;
pub const PLAN: u8 = 2;
pub const TUBE: u8 = 3;
pub const READ: u8 = 4;
pub const WRITE_STL: u8 = 5;
pub const READ_STL: u8 = 6;
pub const BUILD_SHARE: u8 = 7;
pub const PLAN_RECORDS: u8 = 8;
pub const TOO_LONG: u32 = u32::MAX;
pub const NAN: u32 = 0x7FC0_0000;

pub const NAMES: [&str; 8] = [
    "positions",
    "normals",
    "tags",
    "triangles",
    "tubes",
    "boxes",
    "scratch words",
    "scratch floats",
];
/// Which of the eight buffers hold floats.
pub const FLOATS: [bool; 8] = [true, true, false, false, false, true, false, true];

/// The facets of the longest file of `MOST_BYTES`: 84 + 50 * 20,969 is 1,048,534.
pub const MOST_FACETS: u32 = 20_969;
/// The least arrays that a batch program has: 34,000 vertices with their triangles (2V - 4 for one tube), 1,024 tubes, 512 residues. There are
/// more positions than the vertices need, so that call 6 lists the corners of every file whole.
pub const MOST: [u32; 8] = [
    9 * MOST_FACETS,
    3 * 34_000,
    34_000,
    3 * (2 * 34_000 - 4),
    5 * 1_024,
    6 * 1_024,
    8 * 512,
    32 * 512,
];
/// A file of 16,385 residues fits. So many bytes may also be lent, for the job of call 4 and for the STL of call 5.
pub const MOST_BYTES: usize = 1 << 20;

#[derive(Clone, Debug, PartialEq)]
pub struct Request {
    pub call: u8,
    pub lengths: [u32; 8],
    pub k: u32,
    pub bytes: Vec<u8>,
}

impl Request {
    pub fn encode(&self) -> Vec<u8> {
        let mut b = Vec::with_capacity(41 + self.bytes.len());
        b.push(self.call);
        for n in self.lengths {
            b.extend(n.to_be_bytes());
        }
        b.extend(self.k.to_be_bytes());
        b.extend((self.bytes.len() as u32).to_be_bytes());
        b.extend(&self.bytes);
        b
    }

    /// The next request, or none when the input ends, be it inside a request.
    pub fn read(input: &mut impl Read) -> io::Result<Option<Request>> {
        let mut head = [0; 41];
        if !read_whole(input, &mut head)? {
            return Ok(None);
        }
        let word = |i: usize| u32::from_be_bytes(head[i..i + 4].try_into().unwrap());
        let length = word(37) as usize;
        let mut bytes = Vec::new();
        if input.take(length as u64).read_to_end(&mut bytes)? < length {
            return Ok(None);
        }
        Ok(Some(Request {
            call: head[0],
            lengths: std::array::from_fn(|i| word(1 + 4 * i)),
            k: word(33),
            bytes,
        }))
    }

    fn too_long(&self) -> bool {
        let past = |i: usize| self.lengths[i] > MOST[i];
        let places = self.lengths[4] as usize + self.lengths[3] as usize;
        match self.call {
            _ if self.bytes.len() > MOST_BYTES => true,
            READ | WRITE_STL if self.lent_bytes().is_some_and(|n| n > MOST_BYTES) => true,
            READ => false,
            WRITE_STL => (0..6).any(past) || !MeshWords::fit(self),
            READ_STL => past(0) || past(1),
            BUILD | PLAN | TUBE | BUILD_SHARE | PLAN_RECORDS if (0..8).any(past) => true,
            BUILD | PLAN => false,
            BUILD_SHARE => self.k > 1 || PartyBytes::of(self).is_none(),
            PLAN_RECORDS => PartyBytes::of(self).is_none(),
            TUBE => self.bytes.len() != 4 * places,
            _ => true,
        }
    }

    /// Where the job begins in the bytes of a call that is given one: behind the records of calls 7 and 8.
    pub fn job_at(&self) -> usize {
        PartyBytes::of(self).map_or(0, |party| self.bytes.len() - party.job.len())
    }

    /// How many bytes are lent, for the calls to which the answer has them.
    fn lent_bytes(&self) -> Option<usize> {
        match self.call {
            READ => Some(self.lengths[0] as usize),
            WRITE_STL => Some(self.lengths[6] as usize),
            _ => None,
        }
    }
}

/// What the bytes of call 5 hold: K, V, T, and the contents of the six mesh buffers, floats by their bits.
#[derive(Clone, Debug, PartialEq)]
pub struct MeshWords {
    pub counts: [u32; 3],
    pub lists: [Vec<u32>; 6],
}

impl MeshWords {
    /// Whether the bytes are those of the six lengths.
    fn fit(r: &Request) -> bool {
        let places: usize = r.lengths[..6].iter().map(|&n| n as usize).sum();
        r.bytes.len() == 12 + 4 * places
    }

    /// None where the bytes are not those of the six lengths.
    pub fn of(r: &Request) -> Option<MeshWords> {
        if !MeshWords::fit(r) {
            return None;
        }
        let words = decode_words(&r.bytes);
        let (counts, mut rest) = words.split_at(3);
        Some(MeshWords {
            counts: counts.try_into().unwrap(),
            lists: std::array::from_fn(|i| {
                let (list, after) = rest.split_at(r.lengths[i] as usize);
                rest = after;
                list.to_vec()
            }),
        })
    }

    pub fn of_buffers(c: Counts, b: &Buffers) -> MeshWords {
        let bits = |floats: &[f32]| floats.iter().map(|f| f.to_bits()).collect();
        MeshWords {
            counts: [c.k, c.v, c.t],
            lists: [
                bits(&b.positions),
                bits(&b.normals),
                b.tags.clone(),
                b.triangles.clone(),
                b.tubes.clone(),
                bits(&b.boxes),
            ],
        }
    }

    /// As the writer takes them; it is lent no scratch.
    pub fn buffers(&self) -> (Counts, Buffers) {
        let floats = |i: usize| self.lists[i].iter().map(|&w| f32::from_bits(w)).collect();
        let [k, v, t] = self.counts;
        let buffers = Buffers {
            positions: floats(0),
            normals: floats(1),
            tags: self.lists[2].clone(),
            triangles: self.lists[3].clone(),
            tubes: self.lists[4].clone(),
            boxes: floats(5),
            words: Vec::new(),
            floats: Vec::new(),
        };
        (Counts { k, v, t }, buffers)
    }

    /// The request to write them into so many lent bytes.
    pub fn request(&self, room: u32) -> Request {
        let mut lengths = [0; 8];
        for (length, list) in lengths.iter_mut().zip(&self.lists) {
            *length = list.len() as u32;
        }
        lengths[6] = room;
        let mut bytes = encode_words(&self.counts);
        bytes.extend(self.lists.iter().flat_map(|list| encode_words(list)));
        Request {
            call: WRITE_STL,
            lengths,
            k: 0,
            bytes,
        }
    }
}

/// What the bytes of calls 7 and 8 hold: both parties' shares, of which call 8 has none, the calling party's records, and the job.
#[derive(Clone, Debug, PartialEq)]
pub struct PartyBytes {
    pub shares: Option<[Shares; 2]>,
    pub records: Vec<u8>,
    pub job: Vec<u8>,
}

impl PartyBytes {
    /// None where the bytes end before the records do, or the call has none.
    pub fn of(r: &Request) -> Option<PartyBytes> {
        let (shares, rest) = match r.call {
            BUILD_SHARE => {
                let (shares, rest) = r.bytes.split_at_checked(2 * SHARES)?;
                (Some(shares), rest)
            }
            PLAN_RECORDS => (None, &r.bytes[..]),
            _ => return None,
        };
        let (m, rest) = rest.split_at_checked(4)?;
        let m = u32::from_be_bytes(m.try_into().unwrap());
        let (records, job) = rest.split_at_checked(m as usize)?;
        Some(PartyBytes {
            shares: shares.map(decode_shares),
            records: records.to_vec(),
            job: job.to_vec(),
        })
    }

    pub fn encode(&self) -> Vec<u8> {
        let shares = self.shares.iter().flatten().flatten();
        let words = shares.flat_map(|s| [s.start as u32, s.length as u32]);
        let mut bytes = encode_words(&words.collect::<Vec<_>>());
        bytes.extend((self.records.len() as u32).to_be_bytes());
        bytes.extend(&self.records);
        bytes.extend(&self.job);
        bytes
    }
}

/// A party's shares in a request: twelve words.
const SHARES: usize = 48;

fn decode_shares(bytes: &[u8]) -> [Shares; 2] {
    let words = decode_words(bytes);
    let share = |i: usize| Share::new(words[i] as u64, words[i + 1] as u64);
    std::array::from_fn(|party| std::array::from_fn(|i| share(12 * party + 2 * i)))
}

fn read_whole(input: &mut impl Read, out: &mut [u8]) -> io::Result<bool> {
    match input.read_exact(out) {
        Ok(()) => Ok(true),
        Err(e) if e.kind() == io::ErrorKind::UnexpectedEof => Ok(false),
        Err(e) => Err(e),
    }
}

fn words_before(n: u32) -> Vec<u32> {
    (0..n).map(|i| 0xC0DE_0000 + i % 65536).collect()
}

fn floats_before(n: u32) -> Vec<f32> {
    (0..n)
        .map(|i| f32::from_bits(0x4000_0000 + i % 65536))
        .collect()
}

/// What the lent bytes hold before calls 4 and 5.
pub fn job_before(n: u32) -> Vec<u8> {
    (0..n).map(|i| ((i + 165) % 256) as u8).collect()
}

/// What the buffers hold before each call.
pub fn buffers_before(lengths: [u32; 8]) -> Buffers {
    Buffers {
        positions: floats_before(lengths[0]),
        normals: floats_before(lengths[1]),
        tags: words_before(lengths[2]),
        triangles: words_before(lengths[3]),
        tubes: words_before(lengths[4]),
        boxes: floats_before(lengths[5]),
        words: words_before(lengths[6]),
        floats: floats_before(lengths[7]),
    }
}

/// 01: 'all NaNs count as equal', so one stands for all.
pub fn float_word(bits: u32) -> u32 {
    if f32::from_bits(bits).is_nan() {
        NAN
    } else {
        bits
    }
}

fn put_floats(out: &mut Vec<u32>, floats: &[f32]) {
    out.extend(floats.iter().map(|f| float_word(f.to_bits())));
}

/// The oracle's answer, in words; a lent byte is one word here.
pub fn answer(r: &Request) -> Vec<u32> {
    if r.too_long() {
        return vec![TOO_LONG];
    }
    match r.call {
        BUILD => answer_build(r),
        PLAN => answer_plan(r),
        READ => answer_read(r),
        WRITE_STL => answer_write_stl(r),
        READ_STL => answer_read_stl(r),
        BUILD_SHARE => answer_build_share(r),
        PLAN_RECORDS => answer_plan_records(r),
        _ => answer_tube(r),
    }
}

fn answer_build(r: &Request) -> Vec<u32> {
    let mut b = buffers_before(r.lengths);
    let answer = calls::build(&r.bytes, &mut b);
    built_words(answer, &b)
}

fn answer_build_share(r: &Request) -> Vec<u32> {
    let party = PartyBytes::of(r).expect("the bytes hold the records");
    let [first, second] = party.shares.expect("call 7 has shares");
    let (mine, other) = match r.k {
        0 => (first, second),
        _ => (second, first),
    };
    let mut b = buffers_before(r.lengths);
    let answer = build_share(&party.job, &party.records, &mine, &other, &mut b);
    built_words(answer, &b)
}

/// The answer to a build: its four words, and every place of the buffers.
fn built_words(answer: Result<Counts, Refusal>, b: &Buffers) -> Vec<u32> {
    let mut out = match answer {
        Ok(c) => vec![0, c.k, c.v, c.t],
        Err(e) => vec![e.number, e.carried[0], e.carried[1], e.carried[2]],
    };
    put_floats(&mut out, &b.positions);
    put_floats(&mut out, &b.normals);
    out.extend(&b.tags);
    out.extend(&b.triangles);
    out.extend(&b.tubes);
    put_floats(&mut out, &b.boxes);
    out.extend(&b.words);
    put_floats(&mut out, &b.floats);
    out
}

fn answer_plan(r: &Request) -> Vec<u32> {
    planned_words(r, |words, floats| calls::plan(&r.bytes, r.k, words, floats))
}

fn answer_plan_records(r: &Request) -> Vec<u32> {
    let party = PartyBytes::of(r).expect("the bytes hold the records");
    planned_words(r, |words, floats| {
        plan_records(&party.job, &party.records, r.k, words, floats)
    })
}

/// The answer to a plan: its four words, the five words of a tube, and every place of the scratch that it was lent.
fn planned_words(
    r: &Request,
    plan: impl FnOnce(&mut [u32], &mut [f32]) -> Result<(Counts, [u32; 5]), Refusal>,
) -> Vec<u32> {
    let mut words = words_before(r.lengths[6]);
    let mut floats = floats_before(r.lengths[7]);
    let mut out = Vec::new();
    match plan(&mut words, &mut floats) {
        Ok((c, five)) => {
            out.extend([0, c.k, c.v, c.t]);
            out.extend(five);
        }
        Err(e) => {
            out.push(e.number);
            out.extend(e.carried);
            out.extend([0; 5]);
        }
    }
    out.extend(words);
    put_floats(&mut out, &floats);
    out
}

fn answer_tube(r: &Request) -> Vec<u32> {
    let words = decode_words(&r.bytes);
    let (tubes, triangles) = words.split_at(r.lengths[4] as usize);
    let part = calls::tube(tubes, triangles, r.k);
    let mut out = vec![part.len() as u32];
    out.extend(part);
    out
}

fn answer_read(r: &Request) -> Vec<u32> {
    let mut lent = job_before(r.lengths[0]);
    let (number, value) = match pdb::read_pdb(&r.bytes, &mut lent) {
        Ok(size) => (0, size),
        Err(e) => (e.number, e.carried[0]),
    };
    let mut out = vec![number, value, 0, 0];
    out.extend(lent.iter().map(|&b| b as u32));
    out
}

fn answer_write_stl(r: &Request) -> Vec<u32> {
    let (counts, mesh) = MeshWords::of(r).expect("the bytes fit").buffers();
    let mut lent = job_before(r.lengths[6]);
    let (number, value) = match stl::write_stl(&mesh, counts, &mut lent) {
        Ok(size) => (0, size),
        Err(e) => (e.number, e.carried[0]),
    };
    let mut out = vec![number, value, 0, 0];
    out.extend(lent.iter().map(|&b| b as u32));
    out
}

fn answer_read_stl(r: &Request) -> Vec<u32> {
    let mut corners = floats_before(r.lengths[0]);
    let mut normals = floats_before(r.lengths[1]);
    let (number, value) = match stl::read_stl(&r.bytes, &mut corners, &mut normals) {
        Ok(t) => (0, t),
        Err(e) => (e.number, e.carried[0]),
    };
    let mut out = vec![number, value, 0, 0];
    put_floats(&mut out, &corners);
    put_floats(&mut out, &normals);
    out
}

/// Whole words; bytes past the last one are left out.
pub fn decode_words(bytes: &[u8]) -> Vec<u32> {
    bytes
        .chunks_exact(4)
        .map(|b| u32::from_be_bytes(b.try_into().unwrap()))
        .collect()
}

pub fn encode_words(words: &[u32]) -> Vec<u8> {
    words.iter().flat_map(|w| w.to_be_bytes()).collect()
}

/// An answer to this request as it stands in the stream.
pub fn encode_answer(r: &Request, words: &[u32]) -> Vec<u8> {
    if r.lent_bytes().is_none() || words.len() < 4 {
        return encode_words(words);
    }
    let mut bytes = encode_words(&words[..4]);
    bytes.extend(words[4..].iter().map(|&w| w as u8));
    bytes
}

/// How many words follow the first word of an answer to this request.
fn words_after(r: &Request, first: u32) -> usize {
    let sum = |l: &[u32]| l.iter().map(|&n| n as usize).sum::<usize>();
    match r.call {
        _ if first == TOO_LONG => 0,
        BUILD | BUILD_SHARE => 3 + sum(&r.lengths),
        PLAN | PLAN_RECORDS => 8 + sum(&r.lengths[6..]),
        READ | WRITE_STL => 3,
        READ_STL => 3 + sum(&r.lengths[..2]),
        TUBE => first as usize,
        _ => 0,
    }
}

/// A program's whole answer to this request, or none if its output ends first. NaNs in the float buffers are made one.
pub fn read_answer(r: &Request, input: &mut impl Read) -> io::Result<Option<Vec<u32>>> {
    let mut first = [0; 4];
    if !read_whole(input, &mut first)? {
        return Ok(None);
    }
    let first = u32::from_be_bytes(first);
    let length = 4 * words_after(r, first);
    let mut bytes = Vec::with_capacity(length.min(1 << 24));
    if input.take(length as u64).read_to_end(&mut bytes)? < length {
        return Ok(None);
    }
    let mut words = vec![first];
    words.extend(decode_words(&bytes));
    if let Some(length) = r.lent_bytes().filter(|_| first != TOO_LONG) {
        let mut lent = vec![0; length];
        if !read_whole(input, &mut lent)? {
            return Ok(None);
        }
        words.extend(lent.iter().map(|&b| b as u32));
    }
    for (name, range) in places(r, words.len()) {
        if holds_floats(name) {
            words[range].iter_mut().for_each(|w| *w = float_word(*w));
        }
    }
    Ok(Some(words))
}

/// Whether the part of an answer with this name holds floats.
fn holds_floats(name: &str) -> bool {
    let buffer = NAMES.iter().position(|&n| n == name);
    buffer.is_some_and(|i| FLOATS[i]) || [CORNERS, FACET_NORMALS].contains(&name)
}

/// What calls 5 and 6 hand back, by name.
pub const STL_BYTES: &str = "STL bytes";
pub const CORNERS: &str = "corner floats";
pub const FACET_NORMALS: &str = "normal floats";

/// The parts of an answer by name, for reports and for the float places.
pub fn places(r: &Request, length: usize) -> Vec<(&'static str, std::ops::Range<usize>)> {
    let buffers: &[usize] = match r.call {
        TUBE => return vec![("length of the part", 0..1), ("part", 1..length)],
        _ if length == 1 => return vec![("number", 0..1)],
        READ => {
            return vec![
                ("number", 0..1),
                ("size or carried value", 1..2),
                ("zeros", 2..4),
                ("lent bytes", 4..length),
            ];
        }
        WRITE_STL => {
            return vec![
                ("number", 0..1),
                ("size or carried value", 1..2),
                ("zeros", 2..4),
                (STL_BYTES, 4..length),
            ];
        }
        READ_STL => {
            let normals = 4 + r.lengths[0] as usize;
            return vec![
                ("number", 0..1),
                ("T or carried value", 1..2),
                ("zeros", 2..4),
                (CORNERS, 4..normals),
                (FACET_NORMALS, normals..length),
            ];
        }
        BUILD | BUILD_SHARE => &[0, 1, 2, 3, 4, 5, 6, 7],
        _ => &[6, 7],
    };
    let mut out = vec![("number", 0..1), ("counts or carried values", 1..4)];
    let mut at = 4;
    if [PLAN, PLAN_RECORDS].contains(&r.call) {
        out.push(("the five words", 4..9));
        at = 9;
    }
    for &i in buffers {
        let end = at + r.lengths[i] as usize;
        out.push((NAMES[i], at..end));
        at = end;
    }
    out
}
