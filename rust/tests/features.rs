//! The features, by smoltcp 0.14.0's names, and how many runs there are where a number is named, and where none is.
//! `features.sh` runs this with several sets of features.
use net_base::config::ASSEMBLER_MAX_SEGMENT_COUNT;
use net_base::receiver::Receiver;
use net_base::storage::{Assembler, FragmentBuffer};
use net_base::time::Instant;

const FEATURES: &str = "
    default alloc std segmentation-offload assembler-max-segment-count-1 assembler-max-segment-count-2
    assembler-max-segment-count-3 assembler-max-segment-count-4 assembler-max-segment-count-8
    assembler-max-segment-count-16 assembler-max-segment-count-32 packetmeta-id medium-ethernet medium-ip
    proto-ipv4-fragmentation proto-ipv4 proto-ipv6";

#[test]
fn features() {
    let manifest = include_str!("../Cargo.toml");
    let section = manifest.split("[features]").nth(1).expect("a section").split("\n[").next();
    let lines = section.expect("features").lines().filter_map(|line| line.split_once(" = "));
    let mut here: Vec<&str> = lines.map(|(name, _)| name).collect();
    let mut wanted: Vec<&str> = FEATURES.split_whitespace().collect();
    here.sort();
    wanted.sort();
    assert_eq!(here, wanted);
    for line in ["default = [\"std\"]", "std = [\"alloc\"]", "alloc = []"] {
        assert!(manifest.lines().any(|it| it == line), "{line}");
    }
}

/// As many single positions apart from one another as a call takes.
fn count(mut is_taken: impl FnMut(usize) -> bool) -> usize {
    (0..60).take_while(|at| is_taken(2 * at + 1)).count()
}

#[test]
fn runs_of_the_constant() {
    let named = [
        (1, cfg!(feature = "assembler-max-segment-count-1")),
        (2, cfg!(feature = "assembler-max-segment-count-2")),
        (3, cfg!(feature = "assembler-max-segment-count-3")),
        (4, cfg!(feature = "assembler-max-segment-count-4")),
        (8, cfg!(feature = "assembler-max-segment-count-8")),
        (16, cfg!(feature = "assembler-max-segment-count-16")),
        (32, cfg!(feature = "assembler-max-segment-count-32")),
    ];
    let wanted = named.iter().filter(|it| it.1).map(|it| it.0).max().unwrap_or(4);
    assert_eq!(ASSEMBLER_MAX_SEGMENT_COUNT, wanted);
    let mut assembler = Assembler::<ASSEMBLER_MAX_SEGMENT_COUNT>::empty();
    assert_eq!(count(|at| assembler.add(at, 1).is_ok()), wanted);
}

/// What another crate writes, in whose graph these features may be on.
struct Named<'a> {
    assembler: Assembler<4>,
    receiver: Receiver<'a, 4>,
    fragments: FragmentBuffer<'a, 4>,
}

#[test]
fn runs_where_no_number_is_named() {
    let (mut one, mut other) = ([0; 128], [0; 128]);
    let mut named = Named {
        assembler: Assembler::new(),
        receiver: Receiver::new(&mut one[..]),
        fragments: FragmentBuffer::new(&mut other[..], Instant::ZERO),
    };
    assert_eq!(count(|at| named.assembler.add(at, 1).is_ok()), 4);
    assert_eq!(count(|at| named.receiver.segment(at as u64, b"a").is_ok()), 4);
    assert_eq!(count(|at| named.fragments.add(at, b"a").is_ok()), 4);
}
