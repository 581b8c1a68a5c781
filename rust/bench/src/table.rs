//! Tables, as text and as Markdown.

const COLUMNS: usize = 9;

/// The width of each column as text; the first two are set to the left.
const WIDTHS: [usize; COLUMNS] = [42, 13, 10, 10, 6, 5, 17, 17, 5];

type Cells = [String; COLUMNS];

/// A table of one side beside another.
pub struct Table {
    title: String,
    heads: Cells,
    lines: Vec<Cells>,
    asked: usize,
    above: usize,
}

/// An operation's line.
pub struct Line {
    pub operation: String,
    pub size: String,
    /// What each side took, with its unit.
    pub values: [String; 2],
    /// The first side's time divided by the other's.
    pub ratio: Option<f64>,
    pub asked: Option<f64>,
    /// The instructions of each side, or why they are not there.
    pub instructions: [String; 2],
}

impl Line {
    fn is_above(&self) -> bool {
        matches!((self.ratio, self.asked), (Some(ratio), Some(asked)) if ratio > asked)
    }

    fn cells(self) -> Cells {
        let mark = if self.is_above() { "above" } else { "" };
        let ratio = self.ratio.map_or(String::new(), |ratio| format!("{ratio:.3}"));
        let asked = self.asked.map_or(String::new(), |asked| format!("{asked:.2}"));
        let ([one, other], [counted, beside]) = (self.values, self.instructions);
        [
            self.operation,
            self.size,
            one,
            other,
            ratio,
            asked,
            counted,
            beside,
            mark.into(),
        ]
    }
}

impl Table {
    /// An empty table, whose title and heads are printed.
    pub fn start(title: &str, one: &str, other: &str) -> Self {
        let [counted, beside] = [one, other].map(|side| format!("{side} instr."));
        let heads: [&str; COLUMNS] = ["operation", "size", one, other, "ratio", "asked", &counted, &beside, ""];
        let table = Table {
            title: title.into(),
            heads: heads.map(String::from),
            lines: Vec::new(),
            asked: 0,
            above: 0,
        };
        println!("\n{title}\n\n{}", text(&table.heads));
        table
    }

    /// Adds a line, which is printed.
    pub fn put(&mut self, line: Line) {
        self.asked += usize::from(line.asked.is_some());
        self.above += usize::from(line.is_above());
        let cells = line.cells();
        println!("{}", text(&cells));
        self.lines.push(cells);
    }

    pub fn markdown(&self) -> String {
        let rule = "|---|---|---:|---:|---:|---:|---:|---:|---|\n";
        let lines: String = self.lines.iter().map(row).collect();
        format!("### {}\n\n{}{rule}{lines}", self.title, row(&self.heads))
    }
}

/// How many ratios are above what is asked, in all the tables.
pub fn summary(tables: &[Table]) -> String {
    let asked: usize = tables.iter().map(|table| table.asked).sum();
    let above: usize = tables.iter().map(|table| table.above).sum();
    format!("Of {asked} ratios that are asked for, {above} are above what is asked.\n")
}

fn row(cells: &Cells) -> String {
    format!("| {} |\n", cells.join(" | "))
}

fn text(cells: &Cells) -> String {
    let padded = cells.iter().zip(WIDTHS).enumerate().map(|(i, (cell, width))| {
        if i < 2 {
            format!("{cell:<width$}")
        } else {
            format!("{cell:>width$}")
        }
    });
    padded.collect::<Vec<_>>().join(" ").trim_end().to_string()
}

/// A time in the unit that fits it.
pub fn time(nanoseconds: f64) -> String {
    let units = [(1e9, "s"), (1e6, "ms"), (1e3, "µs")];
    let fits = units.into_iter().find(|&(size, _)| nanoseconds >= size);
    let (size, unit) = fits.unwrap_or((1.0, "ns"));
    format!("{} {unit}", digits(nanoseconds / size))
}

/// A number with three digits, or with all those before the point.
pub fn digits(number: f64) -> String {
    let behind = match number {
        ..10.0 => 2,
        10.0..100.0 => 1,
        _ => 0,
    };
    format!("{number:.behind$}")
}

/// A number of instructions: with commas, or if it is small with a digit behind the point.
pub fn count(number: f64) -> String {
    if number < 100.0 {
        return format!("{number:.1}");
    }
    let digits = format!("{number:.0}");
    let mut text = String::new();
    for (i, digit) in digits.chars().enumerate() {
        if i > 0 && (digits.len() - i) % 3 == 0 {
            text.push(',');
        }
        text.push(digit);
    }
    text
}
