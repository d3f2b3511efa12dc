//! One case on the library and on the reference: every number and byte that they leave is compared, and what stands around the
//! buffers that were lent.

use agreement::case::{Answered, Case, Outcome};
use agreement::compare::compare;
use agreement::engine::{Engine, Linked};
use agreement::report::{case_lines, lines, place};
use agreement::run::Found;
use fantanolive::raw;

use crate::interface;

pub struct Both {
    library: Linked,
    reference: Linked,
    /// Whether each case is told in full.
    tells: bool,
}

/// What a case came to.
pub struct Done {
    /// The number that the reference answers, 0 when carried out.
    pub number: u64,
    /// The case as the reference left it.
    pub after: Case,
    /// Where the two part, in words.
    pub difference: Option<String>,
}

/// Whether a refusal left something written, but the place that goes with 16.
fn wrote_on_refusal(case: &Case, outcome: &Outcome) -> bool {
    let arguments = case.call().arguments.iter().zip(&outcome.left);
    let mut written = arguments.filter(|(_, left)| left.is_some());
    outcome.answer != 0
        && written.any(|(argument, _)| (outcome.answer, argument.name()) != (16, "place"))
}

impl Both {
    pub fn new(tells: bool) -> Both {
        // SAFETY: the calls by their names, both with the interface of `fantanolive.h`.
        let [library, reference] = unsafe {
            [
                Linked::new(&raw::addresses()),
                Linked::new(&interface::addresses()),
            ]
        };
        Both {
            library,
            reference,
            tells,
        }
    }

    /// Makes the call of a case on both.
    pub fn run(&mut self, case: &Case) -> Done {
        let reference = match self.reference.run(case) {
            Answered::Outcome(outcome) => outcome,
            Answered::Failed(words) => panic!("the reference: {words}"),
        };
        let library = self.library.run(case);
        let difference = match compare(case, &reference, &library) {
            Some(difference) => Some(self.told(Found {
                difference,
                case: case.clone(),
                ours: reference.clone(),
                theirs: library,
                count: 1,
                first: 0,
            })),
            None if wrote_on_refusal(case, &reference) => {
                Some("the reference wrote on a refusal".to_string())
            }
            None => None,
        };
        if self.tells && difference.is_none() {
            println!("{}:", case.call().name);
            println!("{}", case_lines(case).join("\n"));
            println!("both answer {}", reference.answer);
        }
        Done {
            number: reference.answer,
            after: reference.left_in(case),
            difference,
        }
    }

    /// A difference in a few words.
    fn told(&self, found: Found) -> String {
        if self.tells {
            println!("ours is the reference, the other the library");
            println!("{}", lines(&found).join("\n"));
        }
        match found.difference.kind.answers {
            (reference, Some(library)) if reference != library => {
                format!("the reference answers {reference}, the library {library}")
            }
            _ => place(&found),
        }
    }
}
