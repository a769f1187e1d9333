//! What Rattle has no words for in an assembler: as many runs as smoltcp's build says, and texts.
use core::{array, fmt};

use crate::config::ASSEMBLER_MAX_SEGMENT_COUNT;
use crate::proved::storage::Assembler as Runs;

/// A set of positions of which data has arrived, in as many runs as the build says.
pub type Assembler = Runs<ASSEMBLER_MAX_SEGMENT_COUNT>;

impl Assembler {
    /// Returns an assembler with no position.
    pub const fn new() -> Assembler {
        Assembler::empty()
    }
}

/// A hole and the data after it, as they are printed.
#[derive(Debug)]
struct Contig {
    #[allow(dead_code)]
    hole_size: usize,
    #[allow(dead_code)]
    data_size: usize,
}

impl<const N: usize> fmt::Debug for Runs<N> {
    fn fmt(&self, f: &mut fmt::Formatter) -> fmt::Result {
        let (mut runs, mut from) = (self.iter_data(), 0);
        let contigs: [Contig; N] = array::from_fn(|_| {
            let (start, end) = runs.next().unwrap_or((from, from));
            let (hole_size, data_size) = (start - from, end - start);
            from = end;
            Contig {
                hole_size,
                data_size,
            }
        });
        f.debug_struct("Assembler")
            .field("contigs", &contigs)
            .finish()
    }
}

#[cfg(feature = "defmt")]
impl<const N: usize> defmt::Format for Runs<N> {
    fn format(&self, fmt: defmt::Formatter) {
        defmt::write!(fmt, "[ ");
        let mut from = 0;
        for (start, end) in self.iter_data() {
            if start != from {
                defmt::write!(fmt, "({}) ", start - from);
            }
            defmt::write!(fmt, "{} ", end - start);
            from = end;
        }
        defmt::write!(fmt, "]");
    }
}
