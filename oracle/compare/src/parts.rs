//! The parts of the comparison: those that were picked are run, all are named.

use crate::tally::Tally;
use std::process::ExitCode;

/// The exit status where nothing was compared.
const NOTHING: u8 = 2;

pub struct Parts {
    /// How the names of the picked parts begin.
    picked: String,
    /// The names of all parts that there are.
    names: Vec<String>,
    /// How many were run.
    run: usize,
    total: Tally,
}

impl Parts {
    pub fn picked(picked: String) -> Self {
        Parts {
            picked,
            names: Vec::new(),
            run: 0,
            total: Tally::default(),
        }
    }

    /// Runs a part, if it is picked.
    pub fn part(&mut self, name: &str, compare: &dyn Fn(&mut Tally)) {
        if self.picks(name) {
            let mut tally = Tally::default();
            compare(&mut tally);
            self.count(name, &tally);
        }
    }

    /// Runs two parts at once, if either is picked, since both look at the same runs
    /// of a program. One that is not picked shows and counts nothing.
    pub fn two_parts(&mut self, names: [&str; 2], compare: &dyn Fn(&mut [Tally; 2])) {
        let picked = names.map(|name| self.picks(name));
        if picked == [false; 2] {
            return;
        }
        let mut tallies = picked.map(|picked| match picked {
            true => Tally::default(),
            false => Tally::silent(),
        });
        compare(&mut tallies);
        for at in [0, 1] {
            if picked[at] {
                self.count(names[at], &tallies[at]);
            }
        }
    }

    /// Takes a part's name; says whether it is picked.
    fn picks(&mut self, name: &str) -> bool {
        self.names.push(name.to_string());
        name.starts_with(&self.picked)
    }

    /// Says how a part went.
    fn count(&mut self, name: &str, tally: &Tally) {
        self.run += 1;
        println!("{name}: {tally}");
        self.total.add(tally.passed(), tally.failed());
    }

    /// Says how it went. A misspelt name must not look like a comparison that
    /// found nothing, nor may a part that has nothing to compare.
    pub fn end(self) -> ExitCode {
        if self.run == 0 {
            eprintln!("no part's name begins with {:?}; there are:", self.picked);
            self.names.iter().for_each(|name| eprintln!("    {name}"));
            return NOTHING.into();
        }
        println!("{}", self.total);
        match [self.total.passed(), self.total.failed()] {
            [0, 0] => NOTHING.into(),
            [_, 0] => ExitCode::SUCCESS,
            _ => ExitCode::FAILURE,
        }
    }
}
