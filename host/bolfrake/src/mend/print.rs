//! A mended copy in three forms: for people, for tables, for programs.

use std::io::{self, Write};

use mztab::{Break, Change};

use super::mending::Mending;
use super::places::{Place, Places};
use crate::files::new::Written;
use crate::output::columns::Widths;
use crate::output::pages::Titles;
use crate::output::show;
use crate::output::told::Teller;
use crate::output::write::{json, quoted, Format};

/// So many changes, and so many breaks of each sort, are printed for people unless they ask for more.
const FEW: usize = 100;

/// The heads of the table's columns. The section and the column are laid to the left.
const HEADS: [&str; 6] = ["line", "cell", "section", "row", "column", "new"];
const LEFT: [usize; 2] = [2, 4];

/// How many changes are printed at most, as --max says; without it all, but for people.
fn most_changes(format: Format, most: Option<usize>) -> usize {
    let usual = match format {
        Format::Text { .. } => FEW,
        Format::Csv | Format::Json => usize::MAX,
    };
    most.unwrap_or(usual)
}

/// The same of the breaks of each sort. Beside a CSV they are printed for people.
pub fn most_breaks(format: Format, most: Option<usize>) -> usize {
    let usual = match format {
        Format::Text { .. } | Format::Csv => FEW,
        Format::Json => usize::MAX,
    };
    most.unwrap_or(usual)
}

pub struct Report<'a> {
    mending: &'a Mending,
    format: Format,
    pub written: &'a Written,
    /// The changes that are printed.
    changes: &'a [Change],
    most_breaks: usize,
}

impl<'a> Report<'a> {
    pub fn new(
        mending: &'a Mending,
        format: Format,
        most: Option<usize>,
        written: &'a Written,
    ) -> Report<'a> {
        let shown = most_changes(format, most).min(mending.changes.len());
        let format = match (format, written) {
            // Standard error is not coloured.
            (Format::Text { .. }, Written::Output) => Format::Text { coloured: false },
            (format, _) => format,
        };
        Report {
            mending,
            format,
            written,
            changes: &mending.changes[..shown],
            most_breaks: most_breaks(format, most),
        }
    }

    /// What is printed in this form.
    pub fn answer(&self, out: &mut dyn Write) -> io::Result<()> {
        match self.format {
            Format::Text { .. } => {
                self.table(out)?;
                self.rest(self.format, out)
            }
            Format::Csv => self.as_csv(out),
            Format::Json => self.as_json(out),
        }
    }

    /// What stands beside it on standard error: of a CSV all that people are told but the changes.
    pub fn aside(&self, out: &mut dyn Write) -> io::Result<()> {
        match self.format {
            Format::Csv => self.rest(Format::Text { coloured: false }, out),
            _ => Ok(()),
        }
    }

    /// Each change with its place.
    fn each_change(
        &self,
        mut print: impl FnMut(Change, Place) -> io::Result<()>,
    ) -> io::Result<()> {
        let mut places = Places::new(&self.mending.copy);
        let mut changes = self.changes.iter();
        changes.try_for_each(|at| print(*at, places.place(*at)))
    }

    /// The table of changes. It is made twice, first for the widths alone: so a long one takes no memory.
    fn table(&self, out: &mut dyn Write) -> io::Result<()> {
        if self.changes.is_empty() {
            return Ok(());
        }
        let heads = HEADS.map(str::to_string);
        let mut widths = Widths::default();
        widths.fit(&heads);
        self.each_change(|at, place| {
            widths.fit(&line(at, &place));
            Ok(())
        })?;
        out.write_all(widths.lay(&heads, &LEFT).as_bytes())?;
        self.each_change(|at, place| {
            let line = widths.lay(&line(at, &place), &LEFT);
            out.write_all(line.as_bytes())
        })
    }

    /// What people are told beside the changes.
    fn rest(&self, format: Format, out: &mut dyn Write) -> io::Result<()> {
        let count = self.mending.changes.len();
        let hint = format!("--max {count} shows all");
        cut(self.changes.len(), count, "change", &hint, out)?;
        writeln!(out, "{}", self.summary())?;
        let empty = self.mending.empty().count();
        if empty > 0 {
            writeln!(out, "{}{}", self.at_least(), stay_empty(empty))?;
            self.breaks(self.mending.empty(), empty, format, out)?;
        }
        let others = self.mending.others().count();
        if others > 0 {
            let are = if others == 1 { "is" } else { "are" };
            let counted = show::counted(others as u64, "other break");
            writeln!(out, "{}{counted} {are} left", self.at_least())?;
            self.breaks(self.mending.others(), others, format, out)?;
        }
        writeln!(out, "{}", self.verdict())?;
        writeln!(out, "{}", self.copy())
    }

    /// Of very many breaks that are left, not all were looked at.
    fn at_least(&self) -> &'static str {
        if self.mending.lists_all() {
            ""
        } else {
            "at least "
        }
    }

    /// How many cells were mended.
    fn summary(&self) -> String {
        let count = self.mending.changes.len() as u64;
        let hold = match count {
            0 => return "nothing to mend: no empty cell where null may stand, so the copy is the file, byte for byte".to_string(),
            1 => "holds",
            _ => "hold",
        };
        let cells = show::counted(count, "empty cell");
        let rows = show::counted(self.mending.rows() as u64, "row");
        format!("{cells} in {rows} now {hold} null")
    }

    /// The first of these breaks, as `check` prints them.
    fn breaks(
        &self,
        breaks: impl Iterator<Item = Break>,
        count: usize,
        format: Format,
        out: &mut dyn Write,
    ) -> io::Result<()> {
        // A line and a cell are the same in the file and in the copy, which people go on to mend.
        let (name, hint) = match self.written {
            Written::File(name) => (name, format!("`bolfrake check {name}` shows all")),
            _ => {
                let all = self.mending.left.count;
                (&self.mending.name, format!("--max {all} shows all"))
            }
        };
        let titles = Titles::new();
        let mut teller = Teller::new(&self.mending.copy, &titles);
        for at in breaks.take(self.most_breaks) {
            format.one(0, name, &teller.tell(at), out)?;
        }
        cut(count.min(self.most_breaks), count, "break", &hint, out)
    }

    fn verdict(&self) -> String {
        let listed = self.mending.left.breaks().len() as u64;
        let counted = show::counted(u64::from(self.mending.left.count), "break");
        match (self.mending.left.count, self.mending.lists_all()) {
            (0, _) => "the copy is accepted".to_string(),
            (_, true) => format!("the copy has {counted}"),
            (_, false) => format!(
                "the copy has {counted}, of which the first {} were looked at for empty cells",
                show::count(listed)
            ),
        }
    }

    /// What became of the mended copy.
    fn copy(&self) -> String {
        let line = self.written.line("mended copy", &self.mending.copy);
        line.unwrap_or_else(|| {
            "nothing was written, as --dry-run asks: -o NEW writes the mended copy".to_string()
        })
    }

    fn as_csv(&self, out: &mut dyn Write) -> io::Result<()> {
        writeln!(out, "file,{}", HEADS.join(","))?;
        let file = quoted(&self.mending.name);
        self.each_change(|at, place| {
            // The marks keep a table program from reading a name as a number, a date or a formula.
            let column = quoted(&format!("`{}`", place.column));
            writeln!(
                out,
                "{file},{},{},{},{},{column},null",
                at.line, at.cell, place.section, place.row
            )
        })
    }

    fn as_json(&self, out: &mut dyn Write) -> io::Result<()> {
        let mending = self.mending;
        write!(
            out,
            "{{\"file\": {}, \"count\": {}, \"rows\": {}, \"shown\": {}, \"changes\": [",
            json(&mending.name),
            mending.changes.len(),
            mending.rows(),
            self.changes.len()
        )?;
        let mut comma = "";
        self.each_change(|at, place| {
            let (section, column) = (json(place.section), json(place.column));
            write!(
                out,
                "{comma}\n  {{\"line\": {}, \"cell\": {}, \"section\": {section}, \"row\": {}, \"column\": {column}, \"new\": \"null\"}}",
                at.line, at.cell, place.row
            )?;
            comma = ",";
            Ok(())
        })?;
        self.left_as_json(out)?;
        let bytes = mending.copy.len();
        writeln!(
            out,
            ", \"bytes\": {bytes}, \"written\": {}}}",
            self.written.json()
        )
    }

    fn left_as_json(&self, out: &mut dyn Write) -> io::Result<()> {
        let left = &self.mending.left;
        let status = if left.count == 0 {
            "accepted"
        } else {
            "broken"
        };
        let empty = match self.mending.lists_all() {
            true => self.mending.empty().count().to_string(),
            false => "null".to_string(),
        };
        write!(
            out,
            "], \"status\": \"{status}\", \"left\": {}, \"left_empty\": {empty}, \"left_shown\": {}, \"breaks_left\": [",
            left.count,
            left.breaks().len().min(self.most_breaks)
        )?;
        let titles = Titles::new();
        let mut teller = Teller::new(&self.mending.copy, &titles);
        let breaks = left.breaks().take(self.most_breaks).enumerate();
        for (k, at) in breaks {
            Format::Json.one(k, &self.mending.name, &teller.tell(at), out)?;
        }
        out.write_all(b"]")
    }
}

/// A line of the table.
fn line(at: Change, place: &Place) -> [String; 6] {
    let column = match place.column {
        "" => "(no name)",
        name => name,
    };
    [
        at.line.to_string(),
        at.cell.to_string(),
        place.section.to_string(),
        place.row.to_string(),
        column.to_string(),
        "null".to_string(),
    ]
}

/// That cells stay empty, why, and what is to be done.
fn stay_empty(count: usize) -> String {
    let cells = show::counted(count as u64, "empty cell");
    match count {
        1 => format!("{cells} stays empty, since null may not stand in its column: the laboratory must say the value"),
        _ => format!("{cells} stay empty, since null may not stand in their columns: the laboratory must say the values"),
    }
}

/// Says of a list that was cut that it was, and what shows all of it.
fn cut(shown: usize, count: usize, noun: &str, hint: &str, out: &mut dyn Write) -> io::Result<()> {
    let all = show::counted(count as u64, noun);
    match shown {
        shown if shown == count => Ok(()),
        0 => writeln!(out, "of these {all} none shown: {hint}"),
        shown => {
            let first = show::count(shown as u64);
            writeln!(out, "of these {all} the first {first} shown: {hint}")
        }
    }
}
