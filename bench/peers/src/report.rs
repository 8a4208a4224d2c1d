//! The lines that a run prints.

/// How a row is run.
#[derive(Clone, Copy)]
pub struct Report {
    pub prefix: &'static str,
    pub rounds: u64,
    /// Rows whose calls the peer lacks.
    pub lacks: &'static [&'static str],
}

impl Report {
    /// Prints the same of rows whose names begin with `prefix`.
    pub fn with_prefix(self, prefix: &'static str) -> Self {
        Report { prefix, ..self }
    }

    /// Runs `round` and prints the row's line. The loop stands where the row does, as that of this library's rows.
    #[inline(always)]
    pub fn row(&self, name: &str, len: usize, mut round: impl FnMut(u64) -> u64) {
        if self.lacks.contains(&name) {
            return;
        }
        let rounds = self.begin_rounds(len);
        let mut sum: u64 = 0;
        for x in 0..rounds {
            sum = sum.rotate_left(5) ^ round(x);
        }
        self.end_rounds(name, len, rounds, sum);
    }

    /// Begins a row. It is not inlined, and neither is `end_rounds`, so that the instructions between the two can be counted.
    /// Long lists have fewer rounds.
    #[inline(never)]
    fn begin_rounds(&self, len: usize) -> u64 {
        let share = (len / 16) as u64;
        if share < 2 {
            return self.rounds;
        }
        (self.rounds / share).max((self.rounds / 32).min(24)).saturating_add(1)
    }

    /// Ends the row, and prints its line.
    #[inline(never)]
    fn end_rounds(&self, name: &str, len: usize, rounds: u64, sum: u64) {
        println!("{}{name} {len} {rounds} {sum}", self.prefix);
    }
}
