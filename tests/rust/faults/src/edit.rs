//! Faults as files: a line that names the wrong engine, then for each change `file:`, `old:` (lines that stand in the file once)
//! and `new:`. A fault that no small case shows has a line `least:` before them, with the details and rows that it takes and why.

use std::fs;
use std::path::Path;

#[derive(Default)]
struct Change {
    file: String,
    old: Vec<String>,
    new: Vec<String>,
}

pub struct Edit {
    pub label: String,
    /// The details and rows of the smallest case that shows it, where they are many.
    pub least: (usize, usize),
    changes: Vec<Change>,
}

/// The edits of a folder, by label.
pub fn read(folder: &Path) -> Result<Vec<Edit>, String> {
    let entries = fs::read_dir(folder).map_err(|error| format!("{}: {error}", folder.display()))?;
    let mut edits = Vec::new();
    for path in entries.flatten().map(|entry| entry.path()) {
        let text =
            fs::read_to_string(&path).map_err(|error| format!("{}: {error}", path.display()))?;
        let label = path
            .file_stem()
            .unwrap_or_default()
            .to_string_lossy()
            .into_owned();
        edits.push(parsed(label, &text)?);
    }
    edits.sort_by(|one, two| one.label.cmp(&two.label));
    Ok(edits)
}

fn parsed(label: String, text: &str) -> Result<Edit, String> {
    let mut changes: Vec<Change> = Vec::new();
    let mut least = (0, 0);
    for line in text.lines().skip(1) {
        if let Some(numbers) = line.strip_prefix("least: ") {
            least = two_numbers(numbers).ok_or_else(|| format!("{label}: {line}"))?;
            continue;
        }
        if let Some(file) = line.strip_prefix("file: ") {
            let file = file.to_string();
            changes.push(Change {
                file,
                ..Change::default()
            });
            continue;
        }
        let Some(change) = changes.last_mut() else {
            return Err(format!("{label}: no file is named"));
        };
        let (lines, rest) = match (line.strip_prefix("old: "), line.strip_prefix("new:")) {
            (Some(old), _) => (&mut change.old, old),
            (_, Some(new)) => (&mut change.new, new.strip_prefix(' ').unwrap_or(new)),
            _ => return Err(format!("{label}: neither old nor new: {line}")),
        };
        lines.push(rest.to_string());
    }
    Ok(Edit {
        label,
        least,
        changes,
    })
}

/// `DETAILS details, ROWS rows: WHY`
fn two_numbers(text: &str) -> Option<(usize, usize)> {
    let (details, rest) = text.split_once(" details, ")?;
    let (rows, why) = rest.split_once(" rows: ")?;
    let numbers = (details.parse().ok()?, rows.parse().ok()?);
    (!why.is_empty()).then_some(numbers)
}

impl Edit {
    /// Copies the sources with the changes made.
    pub fn plant(&self, from: &Path, to: &Path) -> Result<(), String> {
        fs::create_dir_all(to).map_err(|error| error.to_string())?;
        let entries = fs::read_dir(from).map_err(|error| error.to_string())?;
        for path in entries.flatten().map(|entry| entry.path()) {
            if let Some(name) = path.file_name().filter(|_| path.is_file()) {
                fs::copy(&path, to.join(name)).map_err(|error| error.to_string())?;
            }
        }
        self.changes
            .iter()
            .try_for_each(|change| self.make(change, to))
    }

    fn make(&self, change: &Change, folder: &Path) -> Result<(), String> {
        let path = folder.join(&change.file);
        let text =
            fs::read_to_string(&path).map_err(|error| format!("{}: {error}", path.display()))?;
        let (old, new) = (change.old.join("\n"), change.new.join("\n"));
        if text.matches(&old).count() != 1 {
            return Err(format!(
                "{}: `{old}` doesn't stand once in {}",
                self.label, change.file
            ));
        }
        fs::write(&path, text.replace(&old, &new)).map_err(|error| error.to_string())
    }
}
