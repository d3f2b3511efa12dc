//! Says where libfantanolive.a is: the folder in FANTANOLIVE_LIB_DIR, else target/staticlib of the repository where the crate is
//! in it, else what pkg-config says, else lib of the package where the crate is in that. Takes the version and the texts of
//! refusals and codes from the C headers: those in FANTANOLIVE_INCLUDE_DIR, else beside the library.

use std::env;
use std::fs;
use std::path::{Path, PathBuf};
use std::process::Command;

/// The folders of the archive and of the headers.
struct Found {
    library: PathBuf,
    include: PathBuf,
}

/// What pkg-config says of a variable of the library.
fn asked(variable: &str) -> Option<PathBuf> {
    let mut command = Command::new(env::var_os("PKG_CONFIG").unwrap_or("pkg-config".into()));
    command.args([&format!("--variable={variable}"), "fantanolive"]);
    let said = command.output().ok().filter(|said| said.status.success())?;
    let text = String::from_utf8(said.stdout).ok()?;
    Some(PathBuf::from(text.trim_end())).filter(|folder| folder.is_absolute())
}

/// A folder with the headers in include and the archive in another.
fn beside(folder: PathBuf, library: &str) -> Option<Found> {
    let include = folder.join("include");
    include.join("fantanolive.h").exists().then(|| Found {
        library: folder.join(library),
        include,
    })
}

fn found() -> Found {
    for name in ["PKG_CONFIG", "PKG_CONFIG_PATH", "PKG_CONFIG_LIBDIR"] {
        println!("cargo:rerun-if-env-changed={name}");
    }
    let own = PathBuf::from(env::var_os("CARGO_MANIFEST_DIR").expect("cargo sets it"));
    let by_pkg_config = || {
        Some(Found {
            library: asked("libdir")?,
            include: asked("includedir")?,
        })
    };
    beside(own.join("../.."), "target/staticlib")
        .or_else(by_pkg_config)
        .or_else(|| beside(own.join("../../.."), "lib"))
        .expect(
            "the Fantanolive library is not found: set PKG_CONFIG_PATH to the folder lib/pkgconfig of its package, or \
             FANTANOLIVE_LIB_DIR and FANTANOLIVE_INCLUDE_DIR to its folders lib and include",
        )
}

/// The folder that an environment variable names.
fn named(variable: &str) -> Option<PathBuf> {
    println!("cargo:rerun-if-env-changed={variable}");
    env::var_os(variable).map(PathBuf::from)
}

fn read(path: &Path) -> String {
    println!("cargo:rerun-if-changed={}", path.display());
    fs::read_to_string(path).unwrap_or_else(|error| panic!("{}: {error}", path.display()))
}

/// The literal behind `#define FANTANOLIVE_VERSION`, quotes included.
fn version(header: &str) -> &str {
    header
        .lines()
        .find_map(|line| line.strip_prefix("#define FANTANOLIVE_VERSION "))
        .expect("fantanolive.h has no FANTANOLIVE_VERSION")
        .trim()
}

/// A string of an entry, quotes included, without what stands behind it.
fn literal<'a>(line: &'a str, end: &str) -> &'a str {
    let text = line.trim().strip_suffix(end);
    let text = text.unwrap_or_else(|| panic!("no `{end}` at the end of: {line}"));
    let plain = text.len() > 2 && text.starts_with('"') && text.ends_with('"');
    assert!(plain && !text.contains('\\'), "no plain string: {line}");
    text
}

/// A table of fantanolive_text.h as Rust. An entry has four lines: `{1,`, `"wrong",`, `"where",`, `"mend"},`.
fn table(header: &str, name: &str) -> String {
    let start = format!("{name}[] = {{");
    let mut lines = header.lines().skip_while(|line| !line.ends_with(&start));
    lines.next().unwrap_or_else(|| panic!("no {name}"));
    let mut entries = String::new();
    while let Some(line) = lines.next().filter(|line| line.trim() != "};") {
        let number: u32 = line
            .trim()
            .strip_prefix('{')
            .and_then(|text| text.strip_suffix(','))
            .and_then(|text| text.parse().ok())
            .unwrap_or_else(|| panic!("no number: {line}"));
        let mut next = |end| literal(lines.next().expect("the table ends within an entry"), end);
        let (wrong, location, mend) = (next(","), next(","), next("},"));
        entries += &format!(
            "    Text {{ number: {number}, wrong: {wrong}, location: {location}, mend: {mend} }},\n"
        );
    }
    entries
}

fn main() {
    let named_library = named("FANTANOLIVE_LIB_DIR");
    let include = named("FANTANOLIVE_INCLUDE_DIR").unwrap_or_else(|| found().include);
    let library = named_library.unwrap_or_else(|| found().library);
    let archive = library.join("libfantanolive.a");
    println!("cargo:rerun-if-changed={}", archive.display());
    println!("cargo:rustc-link-search=native={}", library.display());
    println!("cargo:rustc-link-lib=static=fantanolive");

    let header = read(&include.join("fantanolive.h"));
    let texts = read(&include.join("fantanolive_text.h"));
    let source = format!(
        "const VERSION_TEXT: &str = {};\n\
         static REFUSAL_TEXTS: &[Text] = &[\n{}];\n\
         static CODE_TEXTS: &[Text] = &[\n{}];\n",
        version(&header),
        table(&texts, "fantanolive_refusal_texts"),
        table(&texts, "fantanolive_code_texts"),
    );
    let out = PathBuf::from(env::var_os("OUT_DIR").expect("cargo sets it"));
    fs::write(out.join("texts.rs"), source).expect("the generated file can be written");
}
