//! The table's own format, as its first lines say it: sections begun by an equals sign, whose first line names the calls
//! and the fields; then a row to a line, its fields between bars.

pub struct Section<'a> {
    pub calls: Vec<&'a str>,
    pub rows: Vec<Row<'a>>,
}

pub struct Row<'a> {
    names: Vec<&'a str>,
    fields: Vec<&'a str>,
}

pub fn sections(table: &str) -> Vec<Section<'_>> {
    table.split('=').skip(1).map(section).collect()
}

fn section(text: &str) -> Section<'_> {
    let mut lines = text.lines();
    let (calls, names) =
        lines.next().and_then(|heading| heading.split_once(": ")).expect("a heading of calls and fields");
    let names: Vec<&str> = names.split('|').collect();
    let row = |line| Row { names: names.clone(), fields: str::split(line, '|').collect() };
    Section { calls: calls.trim().split(", ").collect(), rows: lines.map(row).collect() }
}

/// A number in decimal, with commas or without.
pub fn number(text: &str) -> usize {
    text.replace(',', "").parse().expect("a number of the table")
}

impl Row<'_> {
    /// The field of this name; empty where the row leaves it out or its section has none.
    pub fn text(&self, name: &str) -> &str {
        let place = self.names.iter().position(|&field| field == name);
        place.and_then(|place| self.fields.get(place).copied()).unwrap_or("")
    }

    pub fn number(&self, name: &str) -> Option<usize> {
        let text = self.text(name);
        (!text.is_empty()).then(|| number(text))
    }

    pub fn numbers(&self, name: &str) -> Vec<usize> {
        self.text(name).split(' ').filter(|part| !part.is_empty()).map(number).collect()
    }
}
