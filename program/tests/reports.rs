//! Reports to keep: pages and CSV files.

mod common;

use std::fs;
use std::path::Path;

use common::*;

fn expected(name: &str) -> String {
    let folder = Path::new(env!("CARGO_MANIFEST_DIR")).join("tests/expected");
    let text = fs::read_to_string(folder.join(name)).unwrap_or_else(|e| panic!("{name}: {e}"));
    text.replace("VERSION", fantanolive::VERSION)
}

fn text(folder: &Folder, name: &str) -> String {
    String::from_utf8(folder.read(name)).expect("it is text")
}

/// The body of a page, without its time.
fn body(folder: &Folder, name: &str) -> String {
    let page = text(folder, name);
    let body = &page[page.find("<body>").expect("it has one")..];
    let time = body.find(", 20").expect("it has a time") + 2;
    format!(
        "{}TIME{}",
        &body[..time],
        &body[time + "2007-12-31T23:59:59Z".len()..]
    )
}

/// Nothing runs in a page, and nothing is fetched for it.
fn see_alone(page: &str) {
    for none in [
        "<script", "http:", "https:", "src=", "href=", "url(", "@import", "onload",
    ] {
        assert!(!page.contains(none), "{none}");
    }
    assert!(page.starts_with("<!doctype html>\n<html lang=\"en\">"));
    assert!(page.contains("default-src 'none'") && page.ends_with("</html>\n"));
}

#[test]
fn a_checked_batch() {
    let folder = Folder::with_example("reports-check");
    let reports = ["--new", "--html", "page.html", "--csv", "list.csv"];
    let ran = folder.run(&with(&CHECK, &reports));
    assert_eq!(ran.status, 1, "{ran:?}");
    assert!(ran
        .out
        .contains("  written              page.html\n  written              list.csv\n"));
    see_alone(&text(&folder, "page.html"));
    assert_eq!(body(&folder, "page.html"), expected("check.html"));
    assert_eq!(text(&folder, "list.csv"), expected("check.csv"));
    // a file that is there is not replaced by a slip, nor is an input
    assert_eq!(folder.run(&with(&CHECK, &reports)).status, 3);
    assert_eq!(
        folder
            .run(&with(&CHECK, &with(&reports, &["--force"])))
            .status,
        1
    );
    let over = ["--new", "--html", "batch.bin", "--force"];
    assert_eq!(folder.run(&with(&CHECK, &over)).status, 3);
}

/// The lines of a record, one for each of its codes, are not parted where the page is printed.
#[test]
fn lines_of_a_record_stay_together() {
    let folder = Folder::with_example("reports-together");
    let blank = record(&[(1, "OH")]);
    folder.write(
        "batch.bin",
        &[blank.clone(), blank, control(0, 0, 0, 0)].concat(),
    );
    let ran = folder.run(&with(&CHECK, &["--new", "--html", "page.html"]));
    assert_eq!(ran.status, 1, "{ran:?}");
    let page = body(&folder, "page.html");
    assert_eq!(page.matches("<tbody>").count(), 2);
    assert!(page.matches("<td data-name=\"Record\">1</td>").count() > 1);
    assert!(page.contains("</tr>\n</tbody>\n<tbody>\n<tr><td data-name=\"Record\">2</td>"));
}

#[test]
fn reports_on_standard_output() {
    let folder = Folder::with_example("reports-standard");
    let ran = folder.run(&with(&CHECK, &["--new", "--csv", "-"]));
    assert_eq!((ran.status, ran.out), (1, expected("check.csv")));
    assert!(ran.err.starts_with("check: not ready: 1 record to fix\n"));
    let two = ["--new", "--csv", "-", "--html", "-"];
    assert_eq!(folder.run(&with(&CHECK, &two)).status, 3);
}

#[test]
fn reports_of_a_run_that_is_refused() {
    let folder = Folder::with_example("reports-refused");
    folder.write("batch.bin", &paper_batch()[..490]);
    let ran = folder.run(&with(&APPLY, &["--new", "--html", "page.html"]));
    assert_eq!(ran.status, 2);
    assert_eq!(folder.names(), ["batch.bin", "locals.bin"]);
}

#[test]
fn no_ssn_is_in_a_report() {
    let folder = Folder::with_example("reports-masks");
    folder.write("two.bin", &two_rows("00"));
    folder.write("weekly.bin", &weekly());
    let reports = ["--html", "page.html", "--csv", "list.csv", "--force"];
    let post = with(&["post", "two.bin", "weekly.bin", "--dry-run"], &reports);
    let check = with(&CHECK, &with(&["--new"], &reports));
    for arguments in [check, post] {
        assert_eq!(folder.run(&arguments).status, 1);
        for file in ["page.html", "list.csv"] {
            let masked = text(&folder, file);
            assert!(
                !masked.contains("123456789") && masked.contains("*****6789"),
                "{file}"
            );
        }
        assert_eq!(folder.run(&with(&arguments, &["--full"])).status, 1);
        for file in ["page.html", "list.csv"] {
            assert!(text(&folder, file).contains("123456789"), "{file}");
        }
    }
}

#[test]
fn contact_files_and_names_of_files() {
    let folder = Folder::new("reports-contacts");
    folder.write("<b>&\"c\".bin", &contact_file());
    let contacts = [
        "contacts",
        "table.bin",
        "<b>&\"c\".bin",
        "--new",
        "--html",
        "page.html",
    ];
    assert_eq!(folder.run(&contacts).status, 1);
    let page = text(&folder, "page.html");
    see_alone(&page);
    assert!(
        page.contains("&lt;b&gt;&amp;&quot;c&quot;.bin against table.bin") && !page.contains("<b>")
    );
    assert!(page.contains("<td>Telephone Number 1</td><td class=\"number\">1</td>"));
    assert!(page.contains("wrong: Telephone Number 1 &#39;614-555-0103&#39;"));
}

#[test]
fn commands_in_a_page_have_no_backticks() {
    let folder = Folder::new("reports-commands");
    folder.write("two.bin", &two_rows("00"));
    folder.write("weekly.bin", &weekly());
    let post = ["post", "two.bin", "weekly.bin", "--html", "page.html"];
    assert_eq!(folder.run(&post).status, 1);
    let page = text(&folder, "page.html");
    // in the chart, and beside the line
    let find = "see by <code>fantanolive find MASTER KEY</code> what the case has";
    assert_eq!(page.matches(find).count(), 2, "{page}");
    assert!(!page.contains('`'));
}
