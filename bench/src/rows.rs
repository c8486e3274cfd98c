//! What is measured: one row of a table after the other.
use crate::measure::Effort;

/// The numbers of a row, under the names that ../run knows them by.
pub type Figures = Vec<(&'static str, f64)>;

/// A row that is still to be measured. What it is measured on is made only then.
pub struct Row<'s> {
    table: &'static str,
    name: String,
    measure: Box<dyn FnOnce(Effort) -> Figures + 's>,
}

impl<'s> Row<'s> {
    pub fn new(table: &'static str, name: impl Into<String>, measure: impl FnOnce(Effort) -> Figures + 's) -> Row<'s> {
        Row { table, name: name.into(), measure: Box::new(measure) }
    }

    pub fn has(&self, word: &str) -> bool {
        self.table.contains(word) || self.name.contains(word)
    }

    /// Says what comes, measures it, and writes the row.
    fn measure(self, effort: Effort) {
        let Row { table, name, measure } = self;
        println!("now\t{table}: {name}");
        let figures = measure(effort).into_iter().map(|(what, number)| format!("\t{what}={number}"));
        println!("row\t{table}\t{name}{}", figures.collect::<String>());
    }
}

pub fn measure(rows: Vec<Row>, effort: Effort) {
    println!("rows\t{}", rows.len());
    for row in rows {
        row.measure(effort);
    }
}
