//! How often each class came, and the summary that a run ends with.

use super::class::Class;
use std::collections::BTreeMap;

#[derive(Clone, Default, Debug, PartialEq, Eq)]
pub struct Tally {
    met: BTreeMap<Class, u64>,
    pub calls: u64,
    /// Of edits that had stores to make.
    pub cuts: u64,
}

impl Tally {
    pub fn note(&mut self, class: Class) {
        *self.met.entry(class).or_default() += 1;
    }

    pub fn add(&mut self, other: &Tally) {
        self.calls += other.calls;
        self.cuts += other.cuts;
        for (class, times) in &other.met {
            *self.met.entry(*class).or_default() += times;
        }
    }

    pub fn times(&self, class: Class) -> u64 {
        self.met.get(&class).copied().unwrap_or(0)
    }

    /// The demanded classes that never came.
    pub fn missing(&self) -> Vec<Class> {
        Class::demanded().into_iter().filter(|class| self.times(*class) == 0).collect()
    }

    /// A table for each group of classes: how often each was met. What is not demanded is left blank.
    pub fn summary(&self) -> Vec<String> {
        let mut tables: Vec<(&str, Grid)> = Vec::new();
        for class in Class::demanded() {
            let (table, row, column) = class.place();
            if tables.iter().all(|(name, _)| *name != table) {
                tables.push((table, Grid::default()));
            }
            let (_, grid) = tables.iter_mut().find(|(name, _)| *name == table).expect("it was put there");
            grid.add(row, column, self.times(class));
        }
        tables.iter().flat_map(|(name, grid)| grid.lines(name)).collect()
    }
}

/// Numbers by row and column, each in the order of its first number.
#[derive(Default)]
struct Grid {
    rows: Vec<String>,
    columns: Vec<String>,
    /// How often the classes there came together, and how often the rarest of them.
    cells: BTreeMap<(usize, usize), (u64, u64)>,
}

impl Grid {
    fn add(&mut self, row: String, column: String, times: u64) {
        let row = place(&mut self.rows, row);
        let column = place(&mut self.columns, column);
        let cell = self.cells.entry((row, column)).or_insert((0, u64::MAX));
        *cell = (cell.0 + times, cell.1.min(times));
    }

    /// The columns as they came; numbers in their order.
    fn order(&self) -> Vec<usize> {
        let mut order: Vec<usize> = (0..self.columns.len()).collect();
        let numbers: Option<Vec<u64>> = self.columns.iter().map(|name| name.parse().ok()).collect();
        if let Some(numbers) = numbers {
            order.sort_by_key(|&column| numbers[column]);
        }
        order
    }

    fn lines(&self, name: &str) -> Vec<String> {
        let wide = self.rows.iter().map(String::len).max().unwrap_or(0).max(4);
        let width = |column: usize| self.columns[column].len().max(9);
        let line = |head: &str, cells: &dyn Fn(usize) -> String| {
            let cells: String = self.order().into_iter().map(|n| format!(" {:>1$}", cells(n), width(n))).collect();
            format!("  {head:<wide$}{cells}").trim_end().to_string()
        };
        let mut lines = vec![name.to_string()];
        if self.columns.iter().any(|column| !column.is_empty()) {
            lines.push(line("", &|column| self.columns[column].clone()));
        }
        for (nth, row) in self.rows.iter().enumerate() {
            lines.push(line(row, &|column| match self.cells.get(&(nth, column)) {
                None => String::new(),
                Some((_, 0)) => "NEVER".to_string(),
                Some((times, _)) => times.to_string(),
            }));
        }
        lines
    }
}

fn place(names: &mut Vec<String>, name: String) -> usize {
    let found = names.iter().position(|known| *known == name);
    found.unwrap_or_else(|| {
        names.push(name);
        names.len() - 1
    })
}

#[cfg(test)]
mod tests {
    use super::super::class::{Asked, Given};
    use super::*;

    #[test]
    fn what_was_never_met_is_named() {
        let mut tally = Tally::default();
        assert_eq!(tally.missing().len(), Class::demanded().len());
        let refused = |number| Class::Answer(Asked::Lookup, Given::Refused(number));
        tally.note(refused(2));
        tally.note(refused(2));
        let mut twice = tally.clone();
        twice.add(&tally);
        assert_eq!(twice.times(refused(2)), 4);
        assert_eq!((twice.missing().contains(&refused(1)), twice.missing().contains(&refused(2))), (true, false));
        let row = twice.summary().into_iter().find(|line| line.starts_with("  lookup")).unwrap();
        assert_eq!(row.split_whitespace().collect::<Vec<_>>(), ["lookup", "NEVER", "4"]);
    }

    #[test]
    fn each_class_is_demanded_once() {
        let mut all = Class::demanded();
        let count = all.len();
        all.sort();
        all.dedup();
        assert_eq!(all.len(), count);
    }
}
