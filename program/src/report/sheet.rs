//! Lists of a report as tables: a line per entry, for CSV and HTML.

use std::io;

/// Takes the cells of a line.
pub type Put<'a> = dyn FnMut(&[&str]) -> io::Result<()> + 'a;

/// A table that stands before the list, on a page alone.
pub struct Small<'a> {
    pub caption: String,
    pub heads: &'static [&'static str],
    pub put_lines: PutLines<'a>,
}

/// Gives out the lines of a table.
pub type PutLines<'a> = Box<dyn Fn(&mut Put) -> io::Result<()> + 'a>;

pub trait Sheet {
    /// The tables that a page has before this one.
    fn before(&self) -> Vec<Small<'_>> {
        Vec::new()
    }

    /// What the table is of.
    fn caption(&self) -> String;

    /// The names of the columns.
    fn heads(&self) -> &'static [&'static str];

    /// The lines below those of the list, in CSV alone: a page has them elsewhere.
    fn put_feet(&self, _put: &mut Put) -> io::Result<()> {
        Ok(())
    }

    /// The lines, as many cells each as there are columns.
    fn put_lines(&self, put: &mut Put) -> io::Result<()>;
}
