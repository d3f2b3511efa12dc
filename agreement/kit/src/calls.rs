//! The calls of `fantanolive.h`: their arguments in order, and their refusals in the order of checking.

/// What the bytes of a buffer are, for showing them and for making them simpler.
#[derive(Clone, Copy, Debug, PartialEq, Eq)]
pub enum Content {
    Rows,
    /// Details, then the control record.
    Batch,
    /// Reject records, then their control record.
    Rejects,
    /// Lines of a collection file, then the last record.
    Lines,
    Contacts,
    /// REC records, then RCT.
    Reconciliation,
    /// Records of the one-case machine without a control record.
    Records,
    Pages,
    Keys,
    Locals,
    Journal,
    /// A state, a date: a field by itself.
    Field,
    Ascii,
    Ebcdic,
    Verdicts,
    Numbers,
}

#[derive(Clone, Copy, Debug)]
pub enum Argument {
    /// A pointer and a length: in bytes, or in numbers of `width` bytes.
    Buffer {
        name: &'static str,
        content: Content,
        width: usize,
        written: bool,
    },
    Count {
        name: &'static str,
    },
    /// A pointer to numbers of 64 bits, each with its name.
    Result {
        name: &'static str,
        numbers: &'static [&'static str],
    },
}

impl Argument {
    pub fn name(&self) -> &'static str {
        match self {
            Argument::Buffer { name, .. }
            | Argument::Count { name }
            | Argument::Result { name, .. } => name,
        }
    }

    /// The bytes of one number, or 1.
    pub fn width(&self) -> usize {
        match self {
            Argument::Buffer { width, .. } => *width,
            _ => 8,
        }
    }

    pub fn is_written(&self) -> bool {
        match self {
            Argument::Buffer { written, .. } => *written,
            Argument::Count { .. } => false,
            Argument::Result { .. } => true,
        }
    }
}

pub struct Call {
    pub name: &'static str,
    /// The request of document 02 that brought it, 0 for the base.
    pub since: u64,
    pub arguments: &'static [Argument],
    pub refusals: &'static [u64],
}

impl Call {
    pub fn argument(&self, name: &str) -> Option<usize> {
        self.arguments.iter().position(|one| one.name() == name)
    }
}

const fn read(name: &'static str, content: Content) -> Argument {
    buffer(name, content, 1, false)
}

const fn written(name: &'static str, content: Content) -> Argument {
    buffer(name, content, 1, true)
}

const fn buffer(name: &'static str, content: Content, width: usize, written: bool) -> Argument {
    Argument::Buffer {
        name,
        content,
        width,
        written,
    }
}

const fn count(name: &'static str) -> Argument {
    Argument::Count { name }
}

const fn result(name: &'static str, numbers: &'static [&'static str]) -> Argument {
    Argument::Result { name, numbers }
}

const MASTER: Argument = written("master", Content::Rows);
const MASTER_READ: Argument = read("master", Content::Rows);
const ROWS: Argument = count("rows");
const LOCALS: Argument = read("locals", Content::Locals);
const BATCH: Argument = read("batch", Content::Batch);
const VERDICTS: Argument = buffer("verdicts", Content::Verdicts, 8, true);
const REJECTS: Argument = written("rejects", Content::Rejects);
const APPLY: &[u64] = &[1, 2, 3, 4, 5, 6, 20, 21, 7, 8, 9, 10, 11];

pub const CALLS: &[Call] = &[
    Call {
        name: "apply",
        since: 0,
        arguments: &[
            MASTER,
            ROWS,
            BATCH,
            LOCALS,
            count("year"),
            VERDICTS,
            REJECTS,
            result(
                "result",
                &["accepted", "rejected", "warned", "neither", "rows"],
            ),
        ],
        refusals: APPLY,
    },
    Call {
        name: "apply_journaled",
        since: 8,
        arguments: &[
            MASTER,
            ROWS,
            BATCH,
            LOCALS,
            count("year"),
            VERDICTS,
            REJECTS,
            written("journal", Content::Journal),
            result(
                "result",
                &[
                    "accepted",
                    "rejected",
                    "warned",
                    "neither",
                    "rows",
                    "journal length",
                ],
            ),
        ],
        refusals: &[1, 2, 3, 4, 5, 6, 20, 21, 7, 8, 9, 10, 11, 25],
    },
    Call {
        name: "take_back",
        since: 8,
        arguments: &[
            MASTER,
            ROWS,
            read("journal", Content::Journal),
            result("rows_after", &["rows"]),
        ],
        refusals: &[3, 4, 26],
    },
    Call {
        name: "totals",
        since: 10,
        arguments: &[
            BATCH,
            result(
                "totals",
                &[
                    "TANF count",
                    "Non-TANF count",
                    "TANF amount",
                    "Non-TANF amount",
                ],
            ),
        ],
        refusals: &[5],
    },
    Call {
        name: "merge",
        since: 13,
        arguments: &[
            read("first", Content::Batch),
            read("second", Content::Batch),
            written("out", Content::Batch),
            result("records", &["records"]),
        ],
        refusals: &[5, 6, 20, 21, 7, 8, 32, 33],
    },
    Call {
        name: "find",
        since: 0,
        arguments: &[
            MASTER_READ,
            ROWS,
            read("key", Content::Keys),
            result("place", &["place"]),
        ],
        refusals: &[3, 4, 14, 15],
    },
    Call {
        name: "find_many",
        since: 9,
        arguments: &[
            MASTER_READ,
            ROWS,
            read("keys", Content::Keys),
            buffer("places", Content::Numbers, 4, true),
            result("comparisons", &["comparisons"]),
        ],
        refusals: &[3, 4, 27, 28],
    },
    Call {
        name: "reconcile",
        since: 0,
        arguments: &[
            MASTER_READ,
            ROWS,
            read("state", Content::Field),
            read("date", Content::Field),
            written("out", Content::Reconciliation),
            result("records", &["records"]),
        ],
        refusals: &[3, 4, 12, 13, 11],
    },
    Call {
        name: "pages",
        since: 12,
        arguments: &[
            MASTER_READ,
            ROWS,
            written("out", Content::Pages),
            result("pages", &["pages"]),
        ],
        refusals: &[3, 4, 31],
    },
    Call {
        name: "add_cents",
        since: 6,
        arguments: &[MASTER, ROWS],
        refusals: &[3, 4],
    },
    Call {
        name: "post",
        since: 6,
        arguments: &[
            MASTER,
            ROWS,
            read("file", Content::Lines),
            buffer("lines", Content::Numbers, 4, true),
            result("listed", &["listed"]),
        ],
        refusals: &[3, 4, 22, 23, 24],
    },
    Call {
        name: "to_ebcdic",
        since: 1,
        arguments: &[
            read("in", Content::Ascii),
            written("out", Content::Ebcdic),
            result("place", &["place"]),
        ],
        refusals: &[16, 17],
    },
    Call {
        name: "to_ascii",
        since: 1,
        arguments: &[
            read("in", Content::Ebcdic),
            written("out", Content::Ascii),
            result("place", &["place"]),
        ],
        refusals: &[16, 17],
    },
    Call {
        name: "contacts_update",
        since: 4,
        arguments: &[
            written("table", Content::Contacts),
            count("count"),
            read("file", Content::Contacts),
            buffer("faulty", Content::Numbers, 4, true),
            result("result", &["contacts", "faulty"]),
        ],
        refusals: &[18, 19],
    },
    Call {
        name: "contacts_codes",
        since: 4,
        arguments: &[
            read("table", Content::Contacts),
            count("count"),
            read("state", Content::Field),
            written("out", Content::Locals),
            result("codes", &["codes"]),
        ],
        refusals: &[18, 12, 19],
    },
    Call {
        name: "records_to",
        since: 11,
        arguments: &[
            read("row", Content::Rows),
            read("wanted", Content::Rows),
            LOCALS,
            written("out", Content::Records),
            result("records", &["records"]),
        ],
        refusals: &[2, 4, 29, 30],
    },
    Call {
        name: "post",
        since: 6,
        arguments: &[
            MASTER,
            ROWS,
            read("file", Content::Lines),
            buffer("lines", Content::Numbers, 2, true),
            result("listed", &["listed"]),
        ],
        refusals: &[3, 4, 22, 23, 24],
    },
    Call {
        name: "contacts_update",
        since: 4,
        arguments: &[
            written("table", Content::Contacts),
            count("count"),
            read("file", Content::Contacts),
            buffer("faulty", Content::Numbers, 2, true),
            result("result", &["contacts", "faulty"]),
        ],
        refusals: &[18, 19],
    },
];

/// How many of the calls are the library's own; those behind them are calls of engines without request 14, whose lists are of
/// 16-bit numbers.
pub const OWN: usize = 16;

/// A call's place in the list.
pub fn named(name: &str) -> Option<usize> {
    CALLS.iter().position(|call| call.name == name)
}

/// The place of a call's form with lists of 16-bit numbers, where it has one.
pub fn named_16_bit(name: &str) -> Option<usize> {
    (OWN..CALLS.len()).find(|&call| CALLS[call].name == name)
}
