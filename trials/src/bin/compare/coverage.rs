//! How often each thing came, by its name; and what must have come.

use std::collections::BTreeMap;
use std::ops::RangeInclusive;

#[derive(Default)]
pub struct Coverage {
    counts: BTreeMap<String, u64>,
}

impl Coverage {
    pub fn count(&mut self, name: &str) {
        self.add(name, 1);
    }

    pub fn add(&mut self, name: &str, times: u64) {
        match self.counts.get_mut(name) {
            Some(count) => *count += times,
            None => drop(self.counts.insert(name.to_string(), times)),
        }
    }

    pub fn of(&self, name: &str) -> u64 {
        self.counts.get(name).copied().unwrap_or(0)
    }

    /// Prints a table, a row with the count of each of its columns; hands back the names that never came.
    pub fn table(&self, title: &str, rows: &[(String, Vec<String>)]) -> Vec<String> {
        println!("{title}");
        let mut missing = Vec::new();
        for (row, columns) in rows {
            let mut line = format!("  {row}:");
            for column in columns {
                let name = format!("{row}, {column}");
                let count = self.of(&name);
                line += &format!("  {column} {count}");
                if count == 0 {
                    missing.push(name);
                }
            }
            println!("{line}");
        }
        missing
    }

    /// Prints how often the least frequent of a row's columns came, which are all these places; hands back the names that never came.
    pub fn places(&self, row: &str, places: RangeInclusive<u64>) -> Vec<String> {
        let (first, last) = (*places.start(), *places.end());
        let names: Vec<String> = places.map(|place| format!("{row}, {place}")).collect();
        let least = names.iter().map(|name| self.of(name)).min().unwrap_or(0);
        println!("  {row}:  places {first} to {last} each at least {least}");
        names
            .into_iter()
            .filter(|name| self.of(name) == 0)
            .collect()
    }
}

/// A row of a table.
pub fn row(name: &str, columns: &[&str]) -> (String, Vec<String>) {
    let columns = columns.iter().map(|column| column.to_string()).collect();
    (name.to_string(), columns)
}
