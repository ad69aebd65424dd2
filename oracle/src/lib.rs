//! The oracle: document 000 (`ribbon_mesh.rs`) compiled over stand-ins which obey 01, the calls that 01 adds around it, a second reading of
//! 02's files (PDB and STL) and of its two parties, a generator of requests, the stream protocol, and the driver that compares another program
//! with it bit for bit.

pub mod angles;
pub mod breaks;
pub mod calls;
pub mod caps;
pub mod cases;
pub mod compare;
pub mod differences;
pub mod generator;
pub mod job;
pub mod jobs;
pub mod parties;
pub mod party_requests;
pub mod pdb;
pub mod pdb_files;
pub mod plan_text;
pub mod protocol;
pub mod record;
pub mod ribbon;
pub mod ribbon_compare;
pub mod ribbon_files;
// Document 000 keeps its own ways of writing, so that it can be held beside the original.
#[allow(
    clippy::assign_op_pattern,
    clippy::needless_range_loop,
    clippy::nonminimal_bool
)]
pub mod ribbon_mesh;
pub mod rng;
pub mod shrink;
pub mod stand_ins;
pub mod stl;
pub mod stl_files;
pub mod tied;
pub mod tubes;
pub mod wrong;
