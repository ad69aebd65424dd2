//! Makes a request smaller for as long as it still shows a difference: atoms, segments and chains dropped, coordinates made simple,
//! lent lengths brought down; of a party's call its records dropped, and shares brought down with the buffers that they stand in; of a PDB file lines dropped and cut, and bytes made blank; of mesh buffers tubes dropped and words made 0; of STL
//! facets cut and words made 0.

use std::ops::Range;

use crate::{
    job::{NONE, RawJob, fix_length},
    parties::{RECORD, Share},
    protocol::{
        BUILD, BUILD_SHARE, MeshWords, PLAN, PLAN_RECORDS, PartyBytes, READ, READ_STL, Request,
        TUBE, WRITE_STL,
    },
    stl::{FACET, HEADER},
    tubes::{triangles_of, vertices_of},
};

/// Each try may start a program, so there is an end to them.
const MOST_TRIES: usize = 3000;

struct Shrinker<F> {
    best: Request,
    shows: F,
    tries: usize,
}

impl<F: FnMut(&Request) -> bool> Shrinker<F> {
    fn take(&mut self, r: Request) -> bool {
        if r == self.best || self.tries >= MOST_TRIES {
            return false;
        }
        self.tries += 1;
        let better = (self.shows)(&r);
        if better {
            self.best = r;
        }
        better
    }

    /// The job's bytes: all there are, but for those of a party in front of it.
    fn job_bytes(&self) -> &[u8] {
        &self.best.bytes[self.best.job_at()..]
    }

    fn job(&self) -> Option<RawJob> {
        RawJob::of(self.job_bytes())
    }

    /// Another job's bytes behind what stands in front of it, with the length field put right, or else as it is: a wrong one is part of what the
    /// request shows.
    fn take_job_bytes(&mut self, bytes: Vec<u8>) -> bool {
        let mut fixed = bytes.clone();
        fix_length(&mut fixed);
        let front = &self.best.bytes[..self.best.job_at()];
        let with = |bytes: &[u8]| Request {
            bytes: [front, bytes].concat(),
            ..self.best.clone()
        };
        let (plain, kept) = (with(&fixed), with(&bytes));
        self.take(plain) || self.take(kept)
    }

    fn take_job(&mut self, change: impl FnOnce(&mut RawJob)) -> bool {
        let Some(mut job) = self.job() else {
            return false;
        };
        change(&mut job);
        let mut bytes = job.bytes();
        bytes[..4].copy_from_slice(&self.job_bytes()[..4]);
        self.take_job_bytes(bytes)
    }

    /// Drops stretches of a list, long ones first.
    fn drop_from<T>(
        &mut self,
        length: impl Fn(&RawJob) -> usize,
        list: impl Fn(&mut RawJob) -> &mut Vec<T>,
    ) {
        let count = |s: &Self| s.job().map_or(0, |j| length(&j));
        let mut stretch = count(self).next_power_of_two();
        while stretch > 0 {
            let mut at = 0;
            while at < count(self) {
                let end = (at + stretch).min(count(self));
                if !self.take_job(|j| drop(list(j).drain(at..end))) {
                    at += stretch;
                }
            }
            stretch /= 2;
        }
    }

    fn drop_last_chain(&mut self) -> bool {
        self.take_job(|j| {
            let last = j.visible.len().wrapping_sub(1) as u16;
            j.visible.pop();
            for a in j.atoms.iter_mut().filter(|a| a.chain == last) {
                a.chain = if last > 0 { last - 1 } else { NONE };
            }
        })
    }

    /// Renumbers residues so that none is unused.
    fn close_residues(&mut self) {
        let Some(job) = self.job() else {
            return;
        };
        for r in (0..job.residues.min(600)).rev() {
            let used = |j: &RawJob| j.atoms.iter().any(|a| a.residue == r);
            if self.job().is_some_and(|j| !used(&j)) {
                self.take_job(|j| {
                    j.residues = j.residues.saturating_sub(1);
                    for a in j
                        .atoms
                        .iter_mut()
                        .filter(|a| a.residue != NONE && a.residue > r)
                    {
                        a.residue -= 1;
                    }
                });
            }
        }
    }

    fn simplify_atoms(&mut self) {
        let atoms = self.job().map_or(0, |j| j.atoms.len());
        for i in 0..atoms {
            self.take_job(|j| j.atoms[i].serial = i as u32 + 1);
            for axis in 0..3 {
                for simpler in [|_| 0.0, f64::round, |x: f64| (x * 8.0).round() / 8.0] {
                    let change = |j: &mut RawJob| {
                        let x = &mut j.atoms[i].xyz[axis];
                        *x = simpler(*x);
                    };
                    if self.take_job(change) {
                        break;
                    }
                }
            }
        }
    }

    /// Bytes that are no job of their counts: cut from the end, then made 0.
    fn cut_bytes(&mut self) {
        for shift in (0..18).rev() {
            loop {
                let mut bytes = self.job_bytes().to_vec();
                bytes.truncate(bytes.len().saturating_sub(1 << shift));
                if !self.take_job_bytes(bytes) {
                    break;
                }
            }
        }
        let at = self.best.job_at();
        for i in at..self.best.bytes.len().min(at + 200) {
            let mut r = self.best.clone();
            r.bytes[i] = 0;
            self.take(r);
        }
    }

    /// The two buffers of a tube call: places dropped from their ends, then words made 0.
    fn cut_places(&mut self) {
        for buffer in [3, 4] {
            for shift in (0..16).rev() {
                loop {
                    let mut r = self.best.clone();
                    let less = r.lengths[buffer].min(1 << shift);
                    let tubes = 4 * r.lengths[4] as usize;
                    let end = if buffer == 4 { tubes } else { r.bytes.len() };
                    r.bytes.drain(end - 4 * less as usize..end);
                    r.lengths[buffer] -= less;
                    if !self.take(r) {
                        break;
                    }
                }
            }
        }
        for i in 0..(self.best.bytes.len() / 4).min(200) {
            let mut r = self.best.clone();
            r.bytes[4 * i..4 * i + 4].fill(0);
            self.take(r);
        }
    }

    fn lines(&self) -> Vec<Vec<u8>> {
        let lines = self.best.bytes.split_inclusive(|&b| b == b'\n');
        lines.map(<[u8]>::to_vec).collect()
    }

    fn take_lines(&mut self, lines: &[Vec<u8>]) -> bool {
        self.take(Request {
            bytes: lines.concat(),
            ..self.best.clone()
        })
    }

    /// Lines of a file: stretches of them dropped, long ones first.
    fn drop_lines(&mut self) {
        let mut stretch = self.lines().len().next_power_of_two();
        while stretch > 0 {
            let mut at = 0;
            while at < self.lines().len() {
                let mut lines = self.lines();
                let end = (at + stretch).min(lines.len());
                lines.drain(at..end);
                if !self.take_lines(&lines) {
                    at += stretch;
                }
            }
            stretch /= 2;
        }
    }

    /// Each line cut before its LF, and its bytes made blank.
    fn simplify_lines(&mut self) {
        for i in 0..self.lines().len() {
            loop {
                let mut lines = self.lines();
                let line = &mut lines[i];
                let end = line.iter().position(|&b| b == b'\n').unwrap_or(line.len());
                if end == 0 {
                    break;
                }
                line.remove(end - 1);
                if !self.take_lines(&lines) {
                    break;
                }
            }
            for at in 0..self.lines()[i].len() {
                let mut lines = self.lines();
                if lines[i][at] != b'\n' {
                    lines[i][at] = b' ';
                    self.take_lines(&lines);
                }
            }
        }
    }

    /// Bytes made 0, in stretches, long ones first; `unit` is 1 for bytes, 4 for words.
    fn clear(&mut self, bytes: Range<usize>, unit: usize) {
        let mut stretch = (bytes.len() / unit).next_power_of_two() * unit;
        while stretch >= unit {
            for at in bytes.clone().step_by(stretch) {
                let mut r = self.best.clone();
                r.bytes[at..(at + stretch).min(bytes.end)].fill(0);
                self.take(r);
            }
            stretch /= 2;
        }
    }

    /// The mesh with this change, lent as much as before, or so many facets less.
    fn take_mesh(
        &mut self,
        facets: u32,
        change: impl FnOnce(&mut MeshWords) -> Option<()>,
    ) -> bool {
        let Some(mut mesh) = MeshWords::of(&self.best) else {
            return false;
        };
        if change(&mut mesh).is_none() {
            return false;
        }
        let room = self.best.lengths[6];
        let less = room.saturating_sub(FACET as u32 * facets);
        self.take(mesh.request(less)) || self.take(mesh.request(room))
    }

    /// Tubes whose record says where their vertices and triangles stand, with all that is theirs; the tubes after them move up.
    fn drop_tubes(&mut self) {
        let tubes = |s: &Self| MeshWords::of(&s.best).map_or(0, |m| m.lists[4].len() / 5);
        for i in (0..tubes(self)).rev() {
            let mesh = MeshWords::of(&self.best).expect("it has tubes");
            let n = mesh.lists[4][5 * i + 2];
            if (1..=16_384).contains(&n) {
                let facets = triangles_of(n as u64) as u32;
                self.take_mesh(facets, |mesh| drop_tube(mesh, i));
            }
        }
    }

    /// Places past what K, V and T need.
    fn drop_spare_places(&mut self) {
        for buffer in 0..6 {
            self.take_mesh(0, |mesh| {
                let [k, v, t] = mesh.counts.map(|n| n as usize);
                let need = [3 * v, 3 * v, v, 3 * t, 5 * k, 6 * k][buffer];
                mesh.lists[buffer].truncate(need);
                Some(())
            });
        }
    }

    /// The words of mesh buffers made 0, the contents of whole buffers first.
    fn clear_mesh(&mut self) {
        let mut from = 12;
        for buffer in 0..6 {
            let to = from + 4 * self.best.lengths[buffer] as usize;
            if to <= self.best.bytes.len() {
                self.clear(from..to, 4);
            }
            from = to;
        }
    }

    /// Facets of an STL file, in stretches, with their places in the lists; the count goes with them, or stays.
    fn cut_facets(&mut self) {
        let facets = |s: &Self| s.best.bytes.len().saturating_sub(HEADER + 4) / FACET;
        let mut stretch = facets(self).next_power_of_two();
        while stretch > 0 {
            let mut at = 0;
            while at < facets(self) {
                let cut = stretch.min(facets(self) - at);
                let tries = [(true, true), (true, false), (false, true), (false, false)];
                let mut cuts = tries.map(|(count, lists)| self.without(at, cut, count, lists));
                if !cuts.iter_mut().any(|r| self.take(r.clone())) {
                    at += stretch;
                }
            }
            stretch /= 2;
        }
    }

    /// The request without these facets.
    fn without(&self, at: usize, cut: usize, count: bool, lists: bool) -> Request {
        let mut r = self.best.clone();
        let from = HEADER + 4 + FACET * at;
        r.bytes.drain(from..from + FACET * cut);
        let field = &mut r.bytes[HEADER..HEADER + 4];
        let t = u32::from_le_bytes((&*field).try_into().unwrap());
        if count {
            field.copy_from_slice(&t.wrapping_sub(cut as u32).to_le_bytes());
        }
        if lists {
            r.lengths[0] = r.lengths[0].saturating_sub(9 * cut as u32);
            r.lengths[1] = r.lengths[1].saturating_sub(3 * cut as u32);
        }
        r
    }

    fn shrink_mesh(&mut self) {
        self.drop_tubes();
        self.drop_spare_places();
        self.clear_mesh();
        self.lower_lengths_of(&[6, 7]);
    }

    fn shrink_stl(&mut self) {
        self.cut_facets();
        for shift in (0..18).rev() {
            let mut r = self.best.clone();
            r.bytes.truncate(r.bytes.len().saturating_sub(1 << shift));
            self.take(r);
        }
        self.lower_lengths();
        self.clear(0..self.best.bytes.len(), 1);
    }

    /// A party's call with this change in its bytes and lengths.
    fn take_party(&mut self, change: impl FnOnce(&mut PartyBytes, &mut [u32; 8])) -> bool {
        let Some(mut party) = PartyBytes::of(&self.best) else {
            return false;
        };
        let mut r = self.best.clone();
        change(&mut party, &mut r.lengths);
        r.bytes = party.encode();
        self.take(r)
    }

    /// Records dropped in stretches, long ones first, as long as they are few enough to leave tries for the rest; then bytes that are no whole record,
    /// and bytes made 0.
    fn drop_records(&mut self) {
        let bytes = |s: &Self| PartyBytes::of(&s.best).map_or(0, |p| p.records.len());
        let mut stretch = (bytes(self) / RECORD).next_power_of_two() * RECORD;
        while stretch >= RECORD && bytes(self) / stretch <= 256 {
            let mut at = 0;
            while at < bytes(self) {
                let end = (at + stretch).min(bytes(self));
                if !self.take_party(|p, _| drop(p.records.drain(at..end))) {
                    at += stretch;
                }
            }
            stretch = stretch / RECORD / 2 * RECORD;
        }
        while self.take_party(|p, _| p.records.truncate(p.records.len().saturating_sub(1))) {}
        for i in 0..bytes(self).min(200) {
            self.take_party(|p, _| p.records[i] = 0);
        }
    }

    /// Both shares of a buffer brought down: each made empty or moved to the front, then its start and its length, the buffer with it or not.
    fn lower_shares(&mut self, buffer: usize) {
        for party in 0..2 {
            self.take_share(party, buffer, |s| *s = Share::default());
            self.take_share(party, buffer, |s| s.start = 0);
        }
        for less in (0..32).rev().map(|shift| 1 << shift) {
            for party in 0..2 {
                self.take_places(party, buffer, less);
                self.take_share(party, buffer, |s| s.length = s.length.saturating_sub(less));
                self.take_share(party, buffer, |s| s.start = s.start.saturating_sub(less));
            }
        }
    }

    fn take_share(&mut self, party: usize, buffer: usize, change: impl FnOnce(&mut Share)) -> bool {
        self.take_party(|p, _| {
            if let Some(shares) = &mut p.shares {
                change(&mut shares[party][buffer]);
            }
        })
    }

    /// So many places taken out of a share and of its buffer; a share behind it moves up.
    fn take_places(&mut self, party: usize, buffer: usize, less: u64) -> bool {
        self.take_party(|p, lengths| {
            let Some([first, second]) = &mut p.shares else {
                return;
            };
            let (own, other) = match party {
                0 => (&mut first[buffer], &mut second[buffer]),
                _ => (&mut second[buffer], &mut first[buffer]),
            };
            own.length = own.length.saturating_sub(less);
            if other.start > own.start {
                other.start = other.start.saturating_sub(less);
            }
            lengths[buffer] = lengths[buffer].saturating_sub(less as u32);
        })
    }

    fn shrink_party(&mut self) {
        self.drop_records();
        self.shrink_job();
        (0..6).for_each(|buffer| self.lower_shares(buffer));
        self.lower_lengths_of(&[0, 1, 2, 3, 4, 5, 6, 7]);
    }

    fn shrink_job(&mut self) {
        if self.job().is_none() {
            self.cut_bytes();
        }
        loop {
            let before = self.best.clone();
            self.drop_from(|j| j.atoms.len(), |j| &mut j.atoms);
            self.drop_from(|j| j.segments.len(), |j| &mut j.segments);
            while self.drop_last_chain() {}
            self.close_residues();
            self.simplify_atoms();
            if self.best == before {
                break;
            }
        }
    }

    fn lower_lengths(&mut self) {
        self.lower_lengths_of(&[0, 1, 2, 3, 4, 5, 6, 7]);
    }

    fn lower_lengths_of(&mut self, which: &[usize]) {
        for &i in which {
            for shift in (0..=16).rev() {
                let mut r = self.best.clone();
                r.lengths[i] = r.lengths[i].saturating_sub(1 << shift);
                self.take(r);
            }
        }
        self.take(Request {
            k: 0,
            ..self.best.clone()
        });
    }
}

/// Takes a tube out of the buffers with its vertices, triangles and box; none where they do not hold them.
fn drop_tube(mesh: &mut MeshWords, i: usize) -> Option<()> {
    let record: Vec<u32> = mesh.lists[4].get(5 * i..5 * i + 5)?.to_vec();
    let (n, v, t) = (record[2] as u64, record[3], record[4]);
    let (vertices, triangles) = (vertices_of(n) as u32, triangles_of(n) as u32);
    let places = [
        (0, 3 * v as usize, 3 * vertices as usize),
        (1, 3 * v as usize, 3 * vertices as usize),
        (2, v as usize, vertices as usize),
        (3, 3 * t as usize, 3 * triangles as usize),
        (4, 5 * i, 5),
        (5, 6 * i, 6),
    ];
    let held =
        |&(buffer, at, length): &(usize, usize, usize)| at + length <= mesh.lists[buffer].len();
    if !places.iter().all(held) {
        return None;
    }
    for (buffer, at, length) in places {
        mesh.lists[buffer].drain(at..at + length);
    }
    for corner in mesh.lists[3].iter_mut().skip(3 * t as usize) {
        *corner = corner.wrapping_sub(vertices);
    }
    for later in mesh.lists[4].chunks_exact_mut(5).skip(i) {
        later[3] = later[3].wrapping_sub(vertices);
        later[4] = later[4].wrapping_sub(triangles);
    }
    let [k, all_vertices, all_triangles] = &mut mesh.counts;
    *k = k.wrapping_sub(1);
    *all_vertices = all_vertices.wrapping_sub(vertices);
    *all_triangles = all_triangles.wrapping_sub(triangles);
    Some(())
}

/// The smallest request found for which `shows` holds; `shows` holds for `r`.
pub fn shrink(r: &Request, shows: impl FnMut(&Request) -> bool) -> Request {
    let mut s = Shrinker {
        best: r.clone(),
        shows,
        tries: 0,
    };
    match r.call {
        BUILD | PLAN => {
            s.shrink_job();
            s.lower_lengths();
        }
        BUILD_SHARE | PLAN_RECORDS => s.shrink_party(),
        TUBE => s.cut_places(),
        READ => {
            s.drop_lines();
            s.lower_lengths();
            s.simplify_lines();
            s.drop_lines();
        }
        WRITE_STL => s.shrink_mesh(),
        READ_STL => s.shrink_stl(),
        _ => {}
    }
    s.best
}
