//! The tables: aligned text, or a page's.

/// What was measured on which tables: ours, and the times that stand beside it.
pub struct Line {
    pub what: String,
    pub tables: String,
    pub times: Vec<f64>,
}

/// A table's title, the unit of its times, and whose they are.
pub struct Head {
    pub title: &'static str,
    pub unit: &'static str,
    pub sides: Vec<&'static str>,
}

impl Head {
    /// Behind ours each side has its time, and ours divided by it.
    fn columns(&self) -> Vec<String> {
        let times = self.sides.iter().map(|side| format!("{side}, {}", self.unit));
        let ratios = times.skip(1).flat_map(|time| [time, "ratio".to_string()]);
        std::iter::once(format!("{}, {}", self.sides[0], self.unit)).chain(ratios).collect()
    }
}

fn shown_time(time: f64) -> String {
    match time {
        ..10.0 => format!("{time:.3}"),
        ..100.0 => format!("{time:.2}"),
        _ => format!("{time:.1}"),
    }
}

fn shown_ratio(ratio: f64) -> String {
    match ratio {
        ..0.1 => format!("{ratio:.3}"),
        _ => format!("{ratio:.2}"),
    }
}

fn cells(line: &Line) -> Vec<String> {
    let ours = line.times[0];
    let others = line.times[1..].iter().flat_map(|&other| [shown_time(other), shown_ratio(ours / other)]);
    [line.what.clone(), line.tables.clone(), shown_time(ours)].into_iter().chain(others).collect()
}

pub fn print(head: &Head, lines: &[Line], page: bool) {
    let columns = head.columns();
    let names: Vec<String> = ["what", "tables"].map(String::from).into_iter().chain(columns.iter().cloned()).collect();
    let rows = lines.iter().map(cells);
    if page {
        println!("### {}\n\n| {} |\n|---|---|{}", head.title, names.join(" | "), "---:|".repeat(columns.len()));
        rows.for_each(|row| println!("| {} |", row.join(" | ")));
    } else {
        println!("{}", head.title);
        let widths: Vec<usize> = columns.iter().map(|name| name.chars().count().max(11)).collect();
        for row in std::iter::once(names).chain(rows) {
            let numbers: String = row[2..].iter().zip(&widths).map(|(cell, &width)| format!(" {cell:>width$}")).collect();
            println!("{:41} {:25}{numbers}", row[0], row[1]);
        }
    }
    println!();
}
