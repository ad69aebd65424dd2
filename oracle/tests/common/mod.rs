//! What several test files need: a build into buffers that fit, and a plain reading of 01. Each file uses a part of it.
#![allow(dead_code)]

pub mod reading;

use oracle::{
    calls::{self, Buffers, Counts, build, list},
    job::{RawJob, Refusal, decode},
    protocol::buffers_before,
};

/// The lengths that an accepted job needs.
pub fn fitting(bytes: &[u8]) -> [u32; 8] {
    let job = decode(bytes).expect("an accepted job");
    let tubes = list(&job);
    calls::needs(tubes.k, tubes.v, tubes.t, job.residues.len() as u64).map(|n| n as u32)
}

pub fn built(job: &RawJob) -> (Counts, Buffers) {
    let bytes = job.bytes();
    let mut b = buffers_before(fitting(&bytes));
    let counts = build(&bytes, &mut b).expect("buffers that fit");
    (counts, b)
}

/// A build of bytes into buffers of one length each.
pub fn build_in(bytes: &[u8], lengths: [u32; 8]) -> (Result<Counts, Refusal>, Buffers) {
    let mut b = buffers_before(lengths);
    let answer = build(bytes, &mut b);
    (answer, b)
}

pub fn tubes(b: &Buffers) -> Vec<[u32; 5]> {
    b.tubes.chunks(5).map(|w| w.try_into().unwrap()).collect()
}
