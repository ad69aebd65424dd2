//! Where two recordings of the same requests differ: how many words of each part of the answers. When answers are recorded anew, since a
//! request of 02 changes what a call answers, this shows that they changed there and nowhere else.

use std::{collections::BTreeMap, fs, io, path::Path};

use crate::protocol::{CORNERS, FACET_NORMALS, NAMES, Request, STL_BYTES, places, read_answer};

/// The parts that are counted: the words that stand in no buffer (number, counts, carried values, the five words, the length of a part),
/// the eight buffers, and what calls 3 to 6 hand back.
pub const PARTS: [&str; 14] = [
    "the answers' own",
    NAMES[0],
    NAMES[1],
    NAMES[2],
    NAMES[3],
    NAMES[4],
    NAMES[5],
    NAMES[6],
    NAMES[7],
    "parts of call 3",
    "job bytes of call 4",
    "STL bytes of call 5",
    "corners of call 6",
    "normals of call 6",
];

/// By the name that `places` gives it, the part of `PARTS`.
fn part_of(name: &str) -> usize {
    match name {
        "part" => 9,
        "lent bytes" => 10,
        STL_BYTES => 11,
        CORNERS => 12,
        FACET_NORMALS => 13,
        _ => NAMES.iter().position(|&n| n == name).map_or(0, |i| 1 + i),
    }
}

/// What `oracle record` writes into a folder.
pub struct Recording {
    pub requests: Vec<Request>,
    pub answers: Vec<u8>,
}

impl Recording {
    pub fn read(folder: &Path) -> Result<Recording, String> {
        let file = |name: &str| {
            let path = folder.join(name);
            fs::read(&path).map_err(|e| format!("{}: {e}", path.display()))
        };
        let requests = whole_requests(&file("requests.bin")?).map_err(|e| e.to_string())?;
        let requests = requests
            .ok_or_else(|| format!("{}: requests.bin holds no whole requests", folder.display()))?;
        Ok(Recording {
            requests,
            answers: file("answers.bin")?,
        })
    }
}

/// None where there is no request, or the last one is cut: nothing, or too little, would be compared.
fn whole_requests(bytes: &[u8]) -> io::Result<Option<Vec<Request>>> {
    let mut input = bytes;
    let mut requests = Vec::new();
    while let Some(r) = Request::read(&mut input)? {
        requests.push(r);
    }
    let length: usize = requests.iter().map(|r| r.encode().len()).sum();
    Ok((length > 0 && length == bytes.len()).then_some(requests))
}

/// How many there are, and how many of them differ.
#[derive(Clone, Copy, Debug, Default, PartialEq)]
pub struct Count {
    pub all: u64,
    pub differ: u64,
}

impl Count {
    fn add(&mut self, differs: bool) {
        self.all += 1;
        self.differ += differs as u64;
    }
}

#[derive(Debug, Default, PartialEq)]
pub struct Differences {
    /// The words of each of `PARTS`.
    pub parts: [Count; 14],
    /// The answers to each call.
    pub answers: BTreeMap<u8, Count>,
    /// Each answer of another length or kind: the request's number from 0, and the first words of its two answers.
    pub unlike: Vec<(usize, [u32; 2])>,
}

impl Differences {
    /// The first word of an answer is its kind, and decides its length. Where it differs the others do not stand in the same places.
    fn count(&mut self, i: usize, r: &Request, old: &[u32], new: &[u32]) {
        self.answers.entry(r.call).or_default().add(old != new);
        if old[0] != new[0] {
            self.unlike.push((i, [old[0], new[0]]));
            return;
        }
        for (name, range) in places(r, old.len()) {
            let part = &mut self.parts[part_of(name)];
            range.for_each(|at| part.add(old[at] != new[at]));
        }
    }

    pub fn text(&self) -> String {
        let parts = PARTS.iter().zip(self.parts);
        let parts: Vec<_> = parts.map(|(name, c)| (name.to_string(), c)).collect();
        let calls = self.answers.iter();
        let calls: Vec<_> = calls.map(|(n, &c)| (format!("to call {n}"), c)).collect();
        let requests: u64 = self.answers.values().map(|c| c.all).sum();
        let mut out = format!("the same {requests} requests in both\n");
        out.push_str(&table("words", &parts));
        out.push_str(&table("answers", &calls));
        if let Some((i, [old, new])) = self.unlike.first() {
            out.push_str(&format!(
                "{} answers are of another length or kind, their words not counted. The first, to request {i} (counted from 0), begins with {old} in OLD, with {new} in NEW\n",
                self.unlike.len()
            ));
        }
        out
    }
}

/// A line for each row, and one for all.
fn table(of: &str, rows: &[(String, Count)]) -> String {
    let mut out = format!("{of:<20} {:>10} {:>10}\n", "in all", "differ");
    let mut sum = Count::default();
    for (name, c) in rows {
        out.push_str(&format!("{name:<20} {:>10} {:>10}\n", c.all, c.differ));
        sum.all += c.all;
        sum.differ += c.differ;
    }
    out + &format!("{:<20} {:>10} {:>10}\n", "all", sum.all, sum.differ)
}

/// The next answer of a recording, which `name` names.
fn next(name: &str, i: usize, r: &Request, answers: &mut &[u8]) -> Result<Vec<u32>, String> {
    read_answer(r, answers)
        .map_err(|e| e.to_string())?
        .ok_or_else(|| format!("{name} has no whole answer to request {i} (counted from 0)"))
}

/// What differs, or why the two cannot be held beside each other.
pub fn differences(old: &Recording, new: &Recording) -> Result<Differences, String> {
    let longer = old.requests.len().max(new.requests.len());
    if let Some(i) = (0..longer).find(|&i| old.requests.get(i) != new.requests.get(i)) {
        return Err(format!(
            "the requests differ, from request {i} (counted from 0) on"
        ));
    }
    let (mut before, mut after) = (&old.answers[..], &new.answers[..]);
    let mut found = Differences::default();
    for (i, r) in old.requests.iter().enumerate() {
        let a = next("OLD", i, r, &mut before)?;
        let b = next("NEW", i, r, &mut after)?;
        found.count(i, r, &a, &b);
    }
    for (name, rest) in [("OLD", before), ("NEW", after)] {
        if !rest.is_empty() {
            return Err(format!("{name} has bytes past its last answer"));
        }
    }
    Ok(found)
}
