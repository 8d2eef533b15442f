//! How often each thing that the papers distinguish happened.

use std::collections::BTreeMap;
use std::fmt;

#[derive(Clone, Default, Debug)]
pub struct Coverage {
    counts: BTreeMap<String, u64>,
}

impl Coverage {
    pub fn count(&mut self, name: &str) {
        self.add(name, 1);
    }

    pub fn count_if(&mut self, happened: bool, name: &str) {
        if happened {
            self.count(name);
        }
    }

    pub fn add(&mut self, name: &str, times: u64) {
        // Most names are there already: no new string for them.
        match self.counts.get_mut(name) {
            Some(count) => *count += times,
            None => {
                self.counts.insert(name.to_string(), times);
            }
        }
    }

    pub fn join(&mut self, other: &Coverage) {
        for (name, times) in &other.counts {
            self.add(name, *times);
        }
    }

    pub fn of(&self, name: &str) -> u64 {
        self.counts.get(name).copied().unwrap_or(0)
    }

    /// Those of the names that never happened.
    pub fn missing(&self, names: Vec<String>) -> Vec<String> {
        names.into_iter().filter(|name| self.of(name) == 0).collect()
    }
}

impl fmt::Display for Coverage {
    fn fmt(&self, out: &mut fmt::Formatter) -> fmt::Result {
        for (name, times) in &self.counts {
            writeln!(out, "{times:>12}  {name}")?;
        }
        Ok(())
    }
}
