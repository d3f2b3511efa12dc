//! The commands, with their operands and options.

use crate::arguments::Arguments;
use crate::commands;
use crate::failure::{Failure, Status};
use crate::progress::Progress;

/// What runs a command.
pub type Run = fn(&Arguments, &Progress) -> Result<Status, Failure>;

pub struct Command {
    pub name: &'static str,
    /// What it is for, in a line of the overall help.
    pub purpose: &'static str,
    /// What must be given; the last one in brackets may be left out, or stand several times.
    pub operands: &'static [&'static str],
    /// The operands that are masters or tables, which are kept, and the options that name files to be kept: never `-`.
    pub kept: &'static [&'static str],
    pub options: &'static [Opt],
    /// The options that name files to be read, and those that name files to be made.
    pub read: &'static [&'static str],
    pub made: &'static [&'static str],
    /// What its own help says behind the usage line.
    pub help: &'static str,
    /// The statuses with which it ends.
    pub statuses: &'static [Status],
    pub run: Run,
}

/// An option: with the name of its value, or a flag.
#[derive(Clone, Copy)]
pub struct Opt {
    pub name: &'static str,
    pub value: Option<&'static str>,
    pub required: bool,
    pub help: &'static str,
}

const fn needed(name: &'static str, value: &'static str, help: &'static str) -> Opt {
    Opt {
        name,
        value: Some(value),
        required: true,
        help,
    }
}

const fn optional(name: &'static str, value: &'static str, help: &'static str) -> Opt {
    Opt {
        name,
        value: Some(value),
        required: false,
        help,
    }
}

const fn flag(name: &'static str, help: &'static str) -> Opt {
    Opt {
        name,
        value: None,
        required: false,
        help,
    }
}

pub const HELP: Opt = flag("--help", "print this help");
pub const JSON: Opt = flag("--json", "print one JSON object in place of text");
pub const FULL: Opt = flag("--full", "print SSNs whole, not the last four digits alone");
const LOCALS: Opt = needed(
    "--locals",
    "FILE",
    "the list of local codes; an empty file is an empty list",
);
const CODES: Opt = optional(
    "--locals",
    "FILE",
    "the list of local codes; without it none is listed",
);
const YEAR: Opt = needed("--year", "YYYY", "the current calendar year");
const NEW: Opt = flag("--new", "start from no file: MASTER is missing or empty");
const ASCII: Opt = flag(
    "--ascii",
    "BATCH, the list and the reject file are in ASCII",
);
const LINES: Opt = flag("--lines", "the same, with a line end behind each record");
const STATE: Opt = needed("--state", "ST", "the state, two letters");
const OUT: Opt = needed("--out", "FILE", "the file to make; - is standard output");
const FORCE: Opt = flag(
    "--force",
    "replace a file that is there (no master or table)",
);
const MODE: Opt = optional(
    "--mode",
    "MODE",
    "the mode of new files in place of 600, such as 640",
);
const WAIT: Opt = optional(
    "--wait",
    "SECONDS",
    "if another run holds the file, wait up to SECONDS for it",
);
const DRY_RUN: Opt = flag("--dry-run", "say what would be done, and change nothing");
const LIMIT: Opt = optional("--limit", "N", "list at most N records in place of ten");
const ALL: Opt = flag("--all", "list all records");
const BY_OFFICE: Opt = flag("--by-office", "count and list records by their local codes");
const HTML: Opt = optional("--html", "FILE", "write the report as a page to be printed");
const CSV: Opt = optional("--csv", "FILE", "write the listed records as CSV");
const QUIET: Opt = flag("--quiet", "print the verdict alone");
const AGAIN: Opt = flag("--again", "do it although the log has it as done before");

/// What commands that write end with.
const WRITES: &[Status] = &[
    Status::Done,
    Status::Refused,
    Status::Problem,
    Status::Unreported,
    Status::Busy,
];
const WRITES_WITH_REJECTS: &[Status] = &[
    Status::Done,
    Status::Rejects,
    Status::Refused,
    Status::Problem,
    Status::Unreported,
    Status::Busy,
];

pub const COMMANDS: &[Command] = &[
    Command {
        name: "apply",
        purpose: "judge a batch and apply it to a master",
        operands: &["MASTER", "BATCH"],
        kept: &["MASTER", "--journal"],
        options: &[
            LOCALS,
            YEAR,
            needed(
                "--rejects",
                "FILE",
                "the reject file to make; - is standard output",
            ),
            optional("--journal", "FILE", "the journal to make, for `take-back`"),
            NEW,
            AGAIN,
            FORCE,
            MODE,
            WAIT,
            ASCII,
            LINES,
            LIMIT,
            ALL,
            BY_OFFICE,
            QUIET,
            HTML,
            CSV,
            JSON,
            FULL,
        ],
        read: &["--locals"],
        made: &["--rejects", "--journal", "--html", "--csv"],
        help: "\
Judges each record of BATCH, applies the accepted ones to MASTER and writes the
reject file. Prints the counts, the dollars, the codes by how often they stand,
and the first ten records with an error or a warning; --limit and --all list
others. With --journal it also writes what `take-back` needs to give the old
MASTER.

The reject file, the journal, a line of MASTER.log, then MASTER are put in place
whole: each is written under its name with .tmp behind it, then renamed. A run
that is refused, or cut off before MASTER is renamed, leaves MASTER as it was,
and `fantanolive log MASTER` says whether a run was carried out. A batch that
was applied to MASTER before is not applied again without --again.",
        statuses: WRITES_WITH_REJECTS,
        run: commands::apply::apply,
    },
    Command {
        name: "check",
        purpose: "judge a batch as apply does, and write nothing",
        operands: &["MASTER", "BATCH"],
        kept: &["MASTER"],
        options: &[
            LOCALS,
            YEAR,
            optional(
                "--rejects",
                "FILE",
                "taken as apply takes it; nothing is written",
            ),
            optional("--journal", "FILE", "the same"),
            NEW,
            flag("--again", "judge it although it was applied before"),
            FORCE,
            MODE,
            WAIT,
            ASCII,
            LINES,
            LIMIT,
            ALL,
            BY_OFFICE,
            QUIET,
            HTML,
            CSV,
            JSON,
            FULL,
        ],
        read: &["--locals"],
        made: &["--html", "--csv"],
        help: "\
Says what `apply` would do with BATCH: whether it is ready to be sent, and what
is to be fixed in which record, the first ten of them. No file is written or
locked but those of --html and --csv.

A batch that was applied to MASTER before isn't ready, with status 3 as `apply`
ends; so is any batch where MASTER.log may not be read. --again leaves the first
out of account.",
        statuses: WRITES_WITH_REJECTS,
        run: commands::apply::check,
    },
    Command {
        name: "build",
        purpose: "make a batch from a CSV file",
        operands: &["[FILE]"],
        kept: &[],
        options: &[
            flag(
                "--template",
                "write the names of the columns in place of a batch",
            ),
            optional("--state", "ST", "the state of the control record"),
            flag(
                "--as-is",
                "take values as they stand, also where digits are wanted",
            ),
            OUT,
            FORCE,
            MODE,
            WAIT,
            flag("--ascii", "write the batch in ASCII"),
            LINES,
            JSON,
        ],
        read: &[],
        made: &["--out"],
        help: "\
Makes a batch from FILE, a CSV file in UTF-8: the first line names fields, each
other line is a detail, with its transaction type in its column. Columns may
stand in any order and be left out; a short amount gets zeros before it, an SSN
may have hyphens, \\xNN is a byte that is no character. Rows of empty cells are
skipped, and columns that a reject file alone has. The control record behind the
details has their totals and the state that is given, or that of the first
detail.

What doesn't fit its field is an error, with line, column and value, and nothing
is written. So is what is no number in a column of digits, unless --as-is takes
it: amounts (whole dollars), SSN, ZIP code, process year, date (CCYYMMDD) and
local codes. `export` of a batch writes such a file; with --as-is, which takes
rows of empty cells too, `build` gives the same batch whatever stands in it.",
        statuses: WRITES,
        run: commands::build::run,
    },
    Command {
        name: "control",
        purpose: "give a batch the right control record",
        operands: &["BATCH"],
        kept: &[],
        options: &[
            optional(
                "--state",
                "ST",
                "the state, in place of the one that is there",
            ),
            OUT,
            FORCE,
            MODE,
            WAIT,
            flag("--ascii", "BATCH and the file made are in ASCII"),
            LINES,
            JSON,
        ],
        read: &[],
        made: &["--out"],
        help: "\
Writes the details of BATCH with the control record that they ask for, and says
what was wrong with the one that was there. A batch without one gets one; one
with control records among its details is refused. It says how many details have
another state. A record that was lost on the way goes unseen then: know why it
was wrong.",
        statuses: WRITES,
        run: commands::control::run,
    },
    Command {
        name: "split",
        purpose: "cut a batch into parts that do what it does",
        operands: &["BATCH"],
        kept: &[],
        options: &[
            optional(
                "--at",
                "N,..",
                "cut behind these records, the first being 1",
            ),
            optional("--records", "N", "cut into parts of at most N records"),
            needed("--out", "PREFIX", "name the parts PREFIX001, PREFIX002, .."),
            FORCE,
            MODE,
            WAIT,
            flag("--ascii", "BATCH and the parts are in ASCII"),
            LINES,
            JSON,
            FULL,
        ],
        read: &[],
        made: &[],
        help: "\
Cuts BATCH into parts, each with its control record. Applied one behind the
other, with the same list and year, the parts leave the rows and give the
verdicts that BATCH does where all are carried out. So that this holds, all
records of a key that has a B go into one part: --at is refused elsewhere, with
the keys that stop it, and --records cuts earlier. BATCH must have a control
record that is right. There are at most 999 parts. Files of an earlier run with
higher numbers stop it; with --force they stay, and are named.",
        statuses: WRITES,
        run: commands::split::run,
    },
    Command {
        name: "merge",
        purpose: "merge two batches of a state, or more, into one",
        operands: &["FIRST", "SECOND", "[MORE ..]"],
        kept: &[],
        options: &[
            OUT,
            flag(
                "--anyway",
                "merge a batch twice, or a key with a B in several files",
            ),
            FORCE,
            MODE,
            WAIT,
            flag("--ascii", "the batches and the merged one are in ASCII"),
            LINES,
            JSON,
            FULL,
        ],
        read: &[],
        made: &["--out"],
        help: "\
Writes one batch: the details of FIRST, those of SECOND and so on, and a control
record with the sums of their totals. Applied, it leaves the rows and gives the
verdicts that the batches give one behind the other, with the same list and
year, where all are carried out and no key with a B has records in two of them.
Where one has, or a batch is given twice, nothing is written without --anyway.",
        statuses: WRITES,
        run: commands::merge::run,
    },
    Command {
        name: "take-back",
        purpose: "take a batch back with its journal",
        operands: &["MASTER", "JOURNAL"],
        kept: &["MASTER"],
        options: &[
            DRY_RUN,
            flag(
                "--anyway",
                "do it although the log has another run on MASTER since",
            ),
            WAIT,
            JSON,
            FULL,
        ],
        read: &[],
        made: &[],
        help: "\
Gives the rows that MASTER had before a batch, from the MASTER that the batch
left and the JOURNAL that `apply --journal` wrote, and replaces MASTER whole,
with a line in MASTER.log. Prints the row counts, then each row that is changed
back, with its fields, and each row that is taken out, by their places in MASTER
before that.

A journal that doesn't fit MASTER is refused (26). Where the log has MASTER as
left by another run than the one that wrote JOURNAL, a posting say, nothing is
taken back without --anyway: what that run changed in the batch's rows would be
lost.",
        statuses: WRITES,
        run: commands::take_back::run,
    },
    Command {
        name: "find",
        purpose: "find cases in a master",
        operands: &["MASTER", "[KEY ..]"],
        kept: &["MASTER"],
        options: &[
            optional("--keys", "FILE", "a file with a key in each line, in ASCII"),
            JSON,
            FULL,
        ],
        read: &["--keys"],
        made: &[],
        help: "\
Prints the row with this key, the first row being 1, and its fields. A deleted
row (status D) is found like a live one.

KEY is state, SSN and case type (A or N), twelve characters: OH123456789N. A
hyphen or space may stand between its parts: oh-123-45-6789-n. Of several keys,
in any order, every one is answered, in the order given; they are looked up
together, in one walk over MASTER. The status is then 6 where one isn't found, 2
where one is no key.

With --keys the keys are read from FILE, one in a line; - in the place of KEY or
FILE is standard input. So no SSN stands in the list of processes or the shell's
history.",
        statuses: &[
            Status::Done,
            Status::Refused,
            Status::Problem,
            Status::NotFound,
        ],
        run: commands::find::run,
    },
    Command {
        name: "edit",
        purpose: "write the batch that leads a case to wanted values",
        operands: &["MASTER", "KEY"],
        kept: &["MASTER"],
        options: &[
            optional("--case-id", "ID", "the case ID, at most 15 characters"),
            optional(
                "--local-code",
                "NNN",
                "the local code: 000, or one of the list",
            ),
            optional(
                "--exclusions",
                "WORDS",
                "all exclusions, commas between; '' for none",
            ),
            optional("--amount", "N", "the arrearage in whole dollars; 0 deletes"),
            CODES,
            OUT,
            FORCE,
            MODE,
            WAIT,
            flag("--ascii", "the list and the batch are in ASCII"),
            LINES,
            JSON,
            FULL,
        ],
        read: &["--locals"],
        made: &["--out"],
        help: "\
Writes a batch that, applied to MASTER with the same list, gives the case the
values that the options name and leaves all else: C, L, R and M records, each
only where its value differs, and the control record. MASTER isn't changed. What
no such records can do is refused (29): names, addresses, a case that is
deleted, a blank case ID, a code that isn't in the list.

KEY is state, SSN and case type, as for `find`; with - in its place it is read
from standard input.",
        statuses: &[
            Status::Done,
            Status::Refused,
            Status::Problem,
            Status::Unreported,
            Status::Busy,
            Status::NotFound,
        ],
        run: commands::edit::run,
    },
    Command {
        name: "records",
        purpose: "write the records that lead from a row to a wanted row",
        operands: &["ROW-FILE", "WANTED-FILE"],
        kept: &[],
        options: &[
            CODES,
            OUT,
            FORCE,
            MODE,
            WAIT,
            flag("--ascii", "the list and the records are in ASCII"),
            LINES,
            JSON,
            FULL,
        ],
        read: &["--locals"],
        made: &["--out"],
        help: "\
Writes the C, L, R and M records that lead from the row in ROW-FILE to the one
in WANTED-FILE, 200 bytes each as in a master, or says that there are none (29).
They are details; with a control record behind them they are a batch, which
`edit` writes.",
        statuses: WRITES,
        run: commands::records::run,
    },
    Command {
        name: "reconcile",
        purpose: "write the reconciliation file of a state",
        operands: &["MASTER"],
        kept: &["MASTER"],
        options: &[
            STATE,
            needed("--date", "CCYYMMDD", "the date of the file"),
            OUT,
            FORCE,
            MODE,
            WAIT,
            flag("--ascii", "write the file in ASCII"),
            LINES,
            JSON,
        ],
        read: &[],
        made: &["--out"],
        help: "\
Writes a REC record for each live row of the state, and the RCT record.",
        statuses: WRITES,
        run: commands::reconcile::run,
    },
    Command {
        name: "compare",
        purpose: "compare a reconciliation file with what a master gives",
        operands: &["MASTER", "RECEIVED"],
        kept: &["MASTER"],
        options: &[
            STATE,
            optional(
                "--records",
                "FILE",
                "write a batch that leads the other side to MASTER",
            ),
            CODES,
            LIMIT,
            ALL,
            QUIET,
            HTML,
            CSV,
            FORCE,
            MODE,
            WAIT,
            flag("--ascii", "RECEIVED, the list and the batch are in ASCII"),
            LINES,
            JSON,
            FULL,
        ],
        read: &["--locals"],
        made: &["--records", "--html", "--csv"],
        help: "\
Compares RECEIVED, a reconciliation file, with the one that MASTER gives for the
state, by key: cases only here, cases only there, and fields that differ. The
two fields that the federal side alone fills (80 and 81) are not compared. The
counts and the state of RECEIVED's RCT record are held against its records.

With --records it writes a batch of C, L, R and M records, with its control
record, that leads the other side's copies to MASTER: amounts in whole dollars,
and an M of zero for a case that MASTER has as deleted. It is for the federal
side, and not to be applied to MASTER. Names, notice dates, cases that are only
here and those that MASTER never had are left to you, and without --locals those
that need an L record. Status 1 means that a case is not the same, or RECEIVED
not what it says of itself.",
        statuses: WRITES_WITH_REJECTS,
        run: commands::compare::run,
    },
    Command {
        name: "pages",
        purpose: "write the live cases of a master in pages, to be printed",
        operands: &["MASTER"],
        kept: &["MASTER"],
        options: &[
            OUT,
            flag("--text", "write ASCII with line ends and form feeds"),
            FORCE,
            MODE,
            WAIT,
            JSON,
            FULL,
        ],
        read: &[],
        made: &["--out"],
        help: "\
Writes a line for each live row of MASTER, whatever its state, in order of key:
key, local code, last name, first name, dollars and how many exclusions it has.
A page has 58 of them, the last one perhaps fewer, between a heading with the
page's number and a foot with the number of its lines.

FILE is in EBCDIC, 132 columns a line and no line ends. With --text it is in
ASCII, with a line feed behind each line and a form feed behind each page, as a
printer takes it; a byte that is no character is a full stop there. The lines
hold SSNs whole, so standard output can't be a terminal without --full.",
        statuses: WRITES,
        run: commands::pages::run,
    },
    Command {
        name: "post",
        purpose: "post a weekly collection file to a master",
        operands: &["MASTER", "FILE"],
        kept: &["MASTER"],
        options: &[
            DRY_RUN,
            AGAIN,
            FORCE,
            MODE,
            WAIT,
            flag("--ascii", "FILE is in ASCII"),
            LINES,
            LIMIT,
            ALL,
            QUIET,
            HTML,
            CSV,
            JSON,
            FULL,
        ],
        read: &[],
        made: &["--html", "--csv"],
        help: "\
Posts the lines of FILE to MASTER in file order, replaces MASTER whole with a
line in MASTER.log, and lists the lines that are not posted, each with why and
what to do, and the cases that were closed. A file that was posted to MASTER
before is not posted again without --again; --dry-run ends with 3 then, too.",
        statuses: WRITES_WITH_REJECTS,
        run: commands::post::run,
    },
    Command {
        name: "add-cents",
        purpose: "add 00 cents to an old master whose rows have none, once",
        operands: &["MASTER"],
        kept: &["MASTER"],
        options: &[WAIT, JSON],
        read: &[],
        made: &[],
        help: "\
Writes 00 into columns 197-198 of every row of MASTER, which has spaces there,
and replaces MASTER whole. A master that has its cents is refused (4).",
        statuses: WRITES,
        run: commands::add_cents::run,
    },
    Command {
        name: "log",
        purpose: "show the runs on a master, and which were carried out",
        operands: &["MASTER"],
        kept: &["MASTER"],
        options: &[JSON],
        read: &[],
        made: &[],
        help: "\
Prints the runs that MASTER.log has: when, what, on which file, its counts, and
what became of it. A run was carried out where MASTER has it in it, and taken
back where `take-back` gave what was there before it; it was not carried out
where MASTER is what it was before; else MASTER was changed otherwise since, and
it is unknown.",
        statuses: &[Status::Done, Status::Problem],
        run: commands::log::run,
    },
    Command {
        name: "contacts",
        purpose: "read a contact file into a table of contact records",
        operands: &["TABLE", "FILE"],
        kept: &["TABLE"],
        options: &[
            flag("--new", "start from no file: TABLE is missing or empty"),
            FORCE,
            MODE,
            WAIT,
            flag("--ascii", "FILE is in ASCII"),
            LINES,
            LIMIT,
            ALL,
            QUIET,
            HTML,
            CSV,
            JSON,
        ],
        read: &[],
        made: &["--html", "--csv"],
        help: "\
Puts the good records of FILE into TABLE, each in the place of the one of its
state and code, replaces TABLE whole, and lists the faulty records.",
        statuses: WRITES_WITH_REJECTS,
        run: commands::contacts::run,
    },
    Command {
        name: "codes",
        purpose: "write the local codes of a state, a list for apply",
        operands: &["TABLE"],
        kept: &[],
        options: &[
            STATE,
            OUT,
            FORCE,
            MODE,
            WAIT,
            flag("--ascii", "write the list in ASCII"),
            LINES,
            JSON,
        ],
        read: &[],
        made: &["--out"],
        help: "\
Writes the codes that TABLE has for the state, all but 000: what `apply` and
`check` take with --locals.",
        statuses: WRITES,
        run: commands::codes::run,
    },
    Command {
        name: "to-ebcdic",
        purpose: "turn a file from ASCII into EBCDIC",
        operands: &["FILE"],
        kept: &[],
        options: &[OUT, FORCE, MODE, WAIT, JSON],
        read: &[],
        made: &["--out"],
        help: "\
Converts upper case letters, digits, the space and - , . ( ) / & ' # by code
page 037. Any other byte, a line end too, is refused (16) and its place told.
Masters are in EBCDIC and are never converted.",
        statuses: WRITES,
        run: commands::convert::to_ebcdic,
    },
    Command {
        name: "to-ascii",
        purpose: "turn a file from EBCDIC into ASCII",
        operands: &["FILE"],
        kept: &[],
        options: &[OUT, FORCE, MODE, WAIT, JSON],
        read: &[],
        made: &["--out"],
        help: "\
The same characters as for `to-ebcdic`, the other way. Masters are not to be
converted: column 195 of a row is no character.",
        statuses: WRITES,
        run: commands::convert::to_ascii,
    },
    Command {
        name: "show",
        purpose: "print the records of a file with the names of their fields",
        operands: &["KIND", "FILE"],
        kept: &[],
        options: &[
            optional("--from", "N", "begin with record N, the first being 1"),
            optional("--count", "N", "print at most N records"),
            optional("--fields", "A,..", "show these fields alone, in this order"),
            optional("--where", "A=B,..", "show records whose field A is B"),
            optional(
                "--search",
                "TEXT",
                "show records with this name, SSN (or its end) or case ID",
            ),
            flag("--all", "go on behind a record that can't be of this KIND"),
            flag(
                "--list",
                "a line per field, with its columns, in place of a table",
            ),
            flag("--ascii", "FILE is in ASCII (not for a master)"),
            LINES,
            JSON,
            FULL,
        ],
        read: &[],
        made: &[],
        help: "\
Prints a table: a line per record, a column per field, those that matter first,
with short names above. Fields are named as `export` names them, letters in
either case. The last record of a batch, reject, reconciliation or collection
file stands below it, field by field. Fillers are left out; with --list and
--json they are shown where they are not blank. A byte that is no character of
the code page is shown as a full stop, in JSON as \\xNN.

KIND is what FILE holds: master, batch, rejects, reconciliation, contacts (a
contact file or table), collections or locals. It stops at the first record that
can't be one of its KIND: a row that isn't sound, or a byte of another file that
is no character. SSNs are masked by their columns; where FILE has a wrong length
or line ends, or the last record of another KIND, or a code of locals is none,
every digit is masked, unless --full is given.

--where compares amounts, local codes and years as numbers, and of exclusions
finds rows that have each word; a comma without an equals sign behind it is part
of the value. --search finds names as reports write them, too: SMITH, JOHN. With
--count the first of those that are found are shown, and all are counted.",
        statuses: &[Status::Done, Status::Problem],
        run: commands::show::run,
    },
    Command {
        name: "export",
        purpose: "write the records of a file as CSV",
        operands: &["KIND", "FILE"],
        kept: &[],
        options: &[
            OUT,
            FORCE,
            MODE,
            WAIT,
            flag("--ascii", "FILE is in ASCII (not for a master)"),
            LINES,
            JSON,
            FULL,
        ],
        read: &[],
        made: &["--out"],
        help: "\
Writes a line with the names of the fields, then a line for each record of FILE
but its last one where that is a control record; KIND is what FILE holds, as for
`show`. SSNs are whole, so standard output can't be a terminal without --full. A
byte that is no character is \\xNN. `build` makes the same batch of it.",
        statuses: WRITES,
        run: commands::export::run,
    },
    Command {
        name: "agree",
        purpose: "show where another engine and the library part",
        operands: &["OTHER"],
        kept: &[],
        options: &[
            optional(
                "--prefix",
                "NAME_",
                "what the calls of OTHER begin with in place of fantanolive_",
            ),
            optional("--calls", "NAME,..", "these calls alone"),
            optional("--cases", "N", "so many cases in place of a minute"),
            optional("--seed", "N", "the cases of a run that had this seed"),
            optional(
                "--up-to",
                "REQUEST",
                "OTHER has the requests up to this one; 0 is the base",
            ),
            flag("--limits", "cases at the limits in full, too"),
            optional("--save", "DIR", "save the differences there as cases"),
            optional("--replay", "DIR", "run the cases of the files *.txt there"),
            JSON,
        ],
        read: &[],
        made: &[],
        help: "\
Lends the same bytes to the library and to OTHER, and compares the answer, every
number and every byte that they leave. OTHER is a shared library (.so) with the
calls of fantanolive.h, or a program that speaks the line protocol of
agreement/README.md; it runs in a process of its own. Calls that it lacks are
left out. Each difference is made as small as it can be, and told with the
sentence of the papers that is at stake.
Status 1 means that they part, 3 that it could not be run.",
        statuses: &[Status::Done, Status::Rejects, Status::Problem],
        run: commands::agree::run,
    },
    Command {
        name: "explain",
        purpose: "say what the number of a refusal or code means",
        operands: &["NUMBER"],
        kept: &[],
        options: &[
            flag("--refusal", "the refusal of this number alone"),
            flag("--code", "the code of this number alone"),
            JSON,
        ],
        read: &[],
        made: &[],
        help: "\
Prints what is wrong, where, and how to fix it. Refusals are the numbers of
whole calls; codes, 1 to 18 (errors), 51 and 52 (warnings), those of a record.",
        statuses: &[Status::Done, Status::Problem],
        run: commands::explain::run,
    },
];

pub fn command(name: &str) -> Option<&'static Command> {
    COMMANDS.iter().find(|command| command.name == name)
}

impl Command {
    /// Whether its last operand may be left out, or stand several times.
    pub fn takes_several(&self) -> bool {
        let last = self.operands.last();
        last.is_some_and(|name| name.starts_with('['))
    }

    /// The operands that must be there.
    pub fn needed_operands(&self) -> &'static [&'static str] {
        let all: &'static [&'static str] = self.operands;
        &all[..all.len() - usize::from(self.takes_several())]
    }

    /// The name of an operand by its number; none where there may be no such operand.
    pub fn operand(&self, number: usize) -> Option<&'static str> {
        let last = self.operands.last().filter(|_| self.takes_several());
        self.operands.get(number).or(last).copied()
    }

    pub fn option(&self, name: &str) -> Option<&'static Opt> {
        let options: &'static [Opt] = self.options;
        options.iter().find(|option| option.name == name)
    }
}
