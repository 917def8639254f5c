//! The calls of the archive, the listing program and the table program.

/// The least and the largest sample, and the least and the largest line of a spectrum.
pub const SAMPLES: (i64, i64) = (-32_768, 32_767);
pub const LINES: (i64, i64) = (-(1 << 28), 1 << 28);

#[derive(Clone, Copy, Debug, PartialEq, Eq, PartialOrd, Ord)]
pub enum Call {
    Forward,
    Bound,
    Backward,
    Smooth,
    Parts,
    Power,
    Scaled,
    Strongest,
    Nearest,
    Check,
    Fetch,
    Save,
    Table,
    List,
    TableProgram,
}

/// The calls on a block. Bound is run beside every forward, and smooth, which takes weights as well, by itself.
pub const ON_A_BLOCK: [Call; 5] = [Call::Forward, Call::Backward, Call::Parts, Call::Power, Call::Scaled];

impl Call {
    /// How many lists of N/2 + 1 cells the call fills.
    pub fn outputs(self) -> usize {
        match self {
            Call::Parts => 2,
            Call::Power => 1,
            _ => 0,
        }
    }

    /// The least and the largest cell that the call takes.
    pub fn limits(self) -> (i64, i64) {
        match self {
            Call::Forward | Call::Bound | Call::Smooth | Call::Save => SAMPLES,
            _ => LINES,
        }
    }

    /// Whether one of the cells is outside the call's limits.
    pub fn is_loud(self, cells: &[i64]) -> bool {
        let (low, high) = self.limits();
        cells.iter().any(|&cell| cell < low || cell > high)
    }
}
