//! A whole run: cases of every kind on both engines, what they part in, and what was seen.

use std::collections::BTreeMap;
use std::time::{Duration, Instant};

use generator::rng::{mix, Rng};

use crate::aims::{self, Aim, Target};
use crate::calls::CALLS;
use crate::case::{Answered, Case, Outcome};
use crate::chains::CHAINS;
use crate::compare::{compare, Difference, Kind};
use crate::engine::{Engine, NO_ANSWER};
use crate::limits;
use crate::older::Older;
use crate::random;
use crate::seen::Seen;
use crate::shrink::shrink;

/// The most kinds of differences that are told.
pub const MOST_KINDS: usize = 10;
/// How often, and how long in all, an engine may come to no answer in a call.
const MOST_FAILURES: u32 = 50;
const MOST_FAILING: Duration = Duration::from_secs(15);
/// How long a difference is made smaller with an engine that takes long over each case; with others it is done in seconds.
const MOST_SHRINKING: Duration = Duration::from_secs(120);

pub struct Options {
    /// The calls to be tried, by their places in `CALLS`.
    pub calls: Vec<usize>,
    /// How many cases; none for as many as the time allows.
    pub cases: Option<u64>,
    pub time: Duration,
    pub seed: u64,
    /// Whether differences are made smaller.
    pub shrinks: bool,
    /// Whether cases at the limits are tried in full.
    pub limits: bool,
}

/// The first difference of a kind, as small as it could be made, and how often the kind was met.
pub struct Found {
    pub difference: Difference,
    pub case: Case,
    pub ours: Outcome,
    pub theirs: Answered,
    pub count: u64,
    /// The number of the case that showed it first.
    pub first: u64,
}

pub struct Report {
    pub cases: u64,
    pub seconds: f64,
    pub found: Vec<Found>,
    /// Kinds beyond those told.
    pub more: u64,
    pub seen: Seen,
    /// Whether the cases came from files.
    pub is_replay: bool,
    /// Calls that were left out after so many failures of the other engine.
    pub given_up: Vec<usize>,
    /// How many of the limits were tried, and those in which the engines part, in words.
    pub limits: usize,
    pub beyond: Vec<String>,
}

/// Whether all calls of these names are among those given.
pub fn allows(calls: &[usize], names: &[&str]) -> bool {
    let named = |name: &&str| calls.iter().any(|&call| CALLS[call].name == *name);
    names.iter().all(named)
}

pub struct Pair<'a> {
    pub ours: &'a mut dyn Engine,
    pub theirs: &'a mut dyn Engine,
    /// What the other engine knows.
    pub older: Older,
}

/// What both engines made of a case.
struct Both {
    /// The case as the other engine got it.
    case: Case,
    /// What the library left.
    ours: Outcome,
    /// The same in the form that the other engine knows.
    wanted: Outcome,
    theirs: Answered,
    difference: Option<Difference>,
}

impl Pair<'_> {
    /// What both make of a case, and where they part; none where the case is one of later requests. Ours always comes to an answer.
    fn run(&mut self, case: &Case) -> Option<Both> {
        let put = self.older.put(case)?;
        let ours = match self.ours.run(&put.ours) {
            Answered::Outcome(outcome) => outcome,
            Answered::Failed(words) => panic!("the library itself: {words}"),
        };
        let theirs = self.theirs.run(&put.theirs);
        let wanted = self.older.wanted(&put, ours.clone());
        let difference = compare(&put.theirs, &wanted, &theirs);
        Some(Both {
            case: put.theirs,
            ours,
            wanted,
            theirs,
            difference,
        })
    }
}

struct Running<'a, 'b> {
    pair: &'a mut Pair<'b>,
    options: &'a Options,
    report: Report,
    /// All kinds met, those that aren't told too.
    kinds: Vec<Kind>,
    /// How often, and how long, the other engine came to no answer, by call.
    failures: BTreeMap<usize, (u32, Duration)>,
}

impl Running<'_, '_> {
    /// One case on both; answers what ours left where it was carried out.
    fn one(&mut self, case: &Case, aim: Option<&Aim>) -> Option<Outcome> {
        let calls = &self.options.calls;
        if !calls.contains(&case.call) || self.report.given_up.contains(&case.call) {
            return None;
        }
        let start = Instant::now();
        let both = self.pair.run(case)?;
        self.report.cases += 1;
        if matches!(both.theirs, Answered::Failed(_)) {
            self.note_failure(case.call, start.elapsed());
        }
        self.report.seen.note(case, &both.ours, aim);
        let ours = both.ours.clone();
        if both.difference.is_some() {
            self.note(case, both);
        }
        (ours.answer == 0).then_some(ours)
    }

    /// A call that fails over and over, or takes long to do so, is left out from then on.
    fn note_failure(&mut self, call: usize, took: Duration) {
        let (count, time) = self.failures.entry(call).or_default();
        *count += 1;
        *time += took;
        if *count >= MOST_FAILURES || *time >= MOST_FAILING {
            self.report.given_up.push(call);
        }
    }

    fn note(&mut self, case: &Case, both: Both) {
        let Some(found) = found(both, self.report.cases) else {
            return;
        };
        let kind = found.difference.kind.clone();
        let mut known = self.report.found.iter_mut();
        if let Some(one) = known.find(|one| one.difference.kind == kind) {
            one.count += 1;
            return;
        }
        if self.kinds.contains(&kind) {
            return;
        }
        self.kinds.push(kind);
        if self.report.found.len() >= MOST_KINDS {
            self.report.more += 1;
            return;
        }
        let found = match self.options.shrinks {
            true => self.smaller(case, found),
            false => found,
        };
        self.report.found.push(found);
    }

    /// The difference of the smallest case of its kind.
    fn smaller(&mut self, case: &Case, large: Found) -> Found {
        let kind = &large.difference.kind;
        let pair = &mut *self.pair;
        // blanks that bring about other codes make nothing simpler, fewer details do
        let mut most = details_and_codes(&large.case, &large.ours);
        // each answer that doesn't come takes the whole time limit
        let start = Instant::now();
        let mut is_late = false;
        let mut keeps = |candidate: &Case| {
            if is_late {
                return false;
            }
            let Some(both) = pair.run(candidate) else {
                return false;
            };
            is_late = matches!(&both.theirs, Answered::Failed(words) if words == NO_ANSWER)
                || start.elapsed() > MOST_SHRINKING;
            let count = details_and_codes(&both.case, &both.wanted);
            let is_same = both
                .difference
                .is_some_and(|difference| difference.kind == *kind);
            if is_same && count <= most {
                most = count;
            }
            is_same && count == most
        };
        let small = shrink(case, &mut keeps);
        let both = self.pair.run(&small);
        both.and_then(|both| found(both, large.first))
            .unwrap_or(large)
    }
}

/// How many details a case has that was carried out, and how many codes they got.
fn details_and_codes(case: &Case, ours: &Outcome) -> (usize, u32) {
    match ours.answer == 0 && case.has("verdicts") {
        true => {
            let details = case.bytes("batch").len() / 245 - 1;
            let verdicts = ours.numbers(case, "verdicts").into_iter().take(details);
            (details, verdicts.map(u64::count_ones).sum())
        }
        false => (0, 0),
    }
}

/// The difference between what both made of a case.
fn found(both: Both, first: u64) -> Option<Found> {
    Some(Found {
        difference: both.difference?,
        case: both.case,
        ours: both.wanted,
        theirs: both.theirs,
        count: 1,
        first,
    })
}

/// Runs cases until their number or the time is reached; `told` hears how far it is.
pub fn run(pair: &mut Pair, options: &Options, told: &mut dyn FnMut(u64, usize)) -> Report {
    let start = Instant::now();
    let aims = options.calls.iter().flat_map(|&call| aims::of_call(call));
    let is_pair = |aim: &Aim| matches!(aim.target, Target::Pair(..));
    let (pairs, others): (Vec<Aim>, Vec<Aim>) = aims.partition(is_pair);
    let chains: Vec<usize> = (0..CHAINS.len())
        .filter(|&at| allows(&options.calls, CHAINS[at].calls))
        .collect();
    let mut running = Running {
        pair,
        options,
        report: Report {
            cases: 0,
            seconds: 0.0,
            found: Vec::new(),
            more: 0,
            seen: Seen::default(),
            is_replay: false,
            given_up: Vec::new(),
            limits: 0,
            beyond: Vec::new(),
        },
        kinds: Vec::new(),
        failures: BTreeMap::new(),
    };
    let mut turn = 0;
    while !others.is_empty() {
        let goes_on = |call: &usize| !running.report.given_up.contains(call);
        if !options.calls.iter().any(goes_on) {
            break;
        }
        let is_enough = match options.cases {
            Some(cases) => running.report.cases >= cases,
            None => start.elapsed() >= options.time,
        };
        if is_enough {
            break;
        }
        let mut rng = Rng::new(mix(options.seed ^ mix(turn)));
        one_turn(&mut running, &mut rng, turn, (&pairs, &others), &chains);
        turn += 1;
        if turn % 256 == 0 {
            told(running.report.cases, running.report.found.len());
        }
    }
    if options.limits {
        try_limits(&mut running, told);
    }
    running.report.seconds = start.elapsed().as_secs_f64();
    running.report
}

/// The limits in full, each once.
fn try_limits(running: &mut Running, told: &mut dyn FnMut(u64, usize)) {
    for (place, limit) in limits::limits().iter().enumerate() {
        if !running.options.calls.contains(&limit.call) {
            continue;
        }
        told(running.report.cases, running.report.found.len());
        let (Some(Ok(ours)), Some(theirs)) = (
            running.pair.ours.run_limit(place),
            running.pair.theirs.run_limit(place),
        ) else {
            continue;
        };
        running.report.cases += 1;
        running.report.limits += 1;
        let name = format!("{}, {}", CALLS[limit.call].name, limit.name);
        let words = match theirs {
            Err(words) => words,
            Ok(theirs) if theirs == ours => continue,
            Ok(theirs) if theirs.answer != ours.answer => {
                format!("ours answers {}, the other {}", ours.answer, theirs.answer)
            }
            Ok(theirs) => format!("ours leaves {ours:?}, the other {theirs:?}"),
        };
        running.report.beyond.push(format!("{name}: {words}"));
    }
}

/// Aims by turns; every tenth turn a chain, every eighth a random case.
fn one_turn(
    running: &mut Running,
    rng: &mut Rng,
    turn: u64,
    aims: (&[Aim], &[Aim]),
    chains: &[usize],
) {
    if turn % 10 == 9 && !chains.is_empty() {
        let chain = chains[(turn / 10) as usize % chains.len()];
        let mut whole = 0;
        (CHAINS[chain].run)(rng, &mut |case| {
            whole += 1;
            running.one(&case, None)
        });
        if whole > 1 {
            running.report.seen.note_chain(chain);
        }
        return;
    }
    if turn % 8 == 7 {
        let case = random::any(rng);
        running.one(&case, None);
        return;
    }
    // every fourth turn a pair of refusals, the others the rest of the aims, each in its turn
    let (pairs, others) = aims;
    let (list, at) = match turn % 4 == 2 && !pairs.is_empty() || others.is_empty() {
        true => (pairs, turn / 4),
        false => (others, turn),
    };
    let aim = &list[mix(at) as usize % list.len()];
    let case = aims::make(rng, aim);
    running.one(&case, Some(aim));
}
