//! Reads the workloads over smoltcp as workloads over the crate net-base: other lines name the types, and the
//! stream is received by the crate's receiver, not by a join of ring and assembler.
use std::path::PathBuf;
use std::{env, fs};

const WORKLOADS: &str = "../workloads/src";

const ROOT: &[(&str, &str)] = &[
    ("use original4::doors::Rand;", "use net_base::rand::Rand;"),
    ("use original4::storage::{", "use net_base::storage::{"),
    ("mix(sum, smoltcp_checksum(", "mix(sum, net_base::checksum::checksum("),
    ("receive(m, Receiver::<Assembler4>::new(", "receive(m, net_base::receiver::Receiver::<4>::new_at("),
    ("receive(m, Receiver::<Assembler32>::new(", "receive(m, net_base::receiver::Receiver::<32>::new_at("),
];

const RECEIVER: &[(&str, &str)] = &[
    ("use managed::ManagedSlice;", "use net_base::managed::ManagedSlice;"),
    ("use original4::storage::RingBuffer;", "use net_base::storage::RingBuffer;"),
    (
        "pub use original4::storage::Assembler as Assembler4;",
        "pub type Assembler4 = net_base::storage::Assembler<4>;",
    ),
    (
        "pub use original32::storage::Assembler as Assembler32;",
        "pub type Assembler32 = net_base::storage::Assembler<32>;",
    ),
    (
        "pub use original256::storage::Assembler as Assembler256;",
        "pub type Assembler256 = net_base::storage::Assembler<256>;",
    ),
    (
        "pub use original1024::storage::Assembler as Assembler1024;",
        "pub type Assembler1024 = net_base::storage::Assembler<1024>;",
    ),
    ("<$type>::new()", "<$type>::empty()"),
];

/// A receiver of the crate, as the workloads call one.
const STREAM: &str = "
impl<const N: usize> Stream for net_base::receiver::Receiver<'_, N> {
    #[inline]
    fn segment(&mut self, position: u64, bytes: &[u8]) -> Option<Segment> {
        let kept = self.keep(position, bytes).ok()?;
        Some(Segment { kept: kept.kept, queued: kept.queued })
    }
    #[inline]
    fn read(&mut self, into: &mut [u8]) -> usize {
        self.read(into)
    }
}
";

fn main() {
    let out = PathBuf::from(env::var_os("OUT_DIR").expect("cargo sets OUT_DIR"));
    for (file, lines, more) in [("lib.rs", ROOT, ""), ("receiver.rs", RECEIVER, STREAM)] {
        let path = format!("{WORKLOADS}/{file}");
        println!("cargo::rerun-if-changed={path}");
        let mut text = fs::read_to_string(&path).expect("a file of the workloads");
        for (old, new) in lines {
            assert!(text.contains(old), "{path} has no {old}");
            text = text.replace(old, new);
        }
        fs::write(out.join(file), text + more).expect("OUT_DIR can be written");
    }
    let module = format!("#[path = {:?}]\n#[allow(dead_code)]\nmod workloads;\n", out.join("lib.rs"));
    fs::write(out.join("root.rs"), module).expect("OUT_DIR can be written");
}
