//! How often each refusal, code and situation was met: what a run has shown.

use std::collections::BTreeMap;

use crate::aims::{self, Aim, Target, SITUATIONS};
use crate::calls::CALLS;
use crate::case::{Case, Outcome};
use crate::chains::CHAINS;
use crate::details::RULES;

const CODES: [u32; 20] = [
    1, 2, 3, 4, 5, 6, 7, 8, 9, 10, 11, 12, 13, 14, 15, 16, 17, 18, 51, 52,
];

#[derive(Default)]
pub struct Seen {
    answers: BTreeMap<(usize, u64), u64>,
    codes: BTreeMap<(usize, u32), u64>,
    /// By aim, and whether what it aims at holds.
    aims: BTreeMap<(Aim, bool), u64>,
    chains: BTreeMap<usize, u64>,
}

/// One line of the table: what it is, and how often it was met.
pub struct Line {
    pub name: String,
    pub count: u64,
}

/// The lines of one call.
pub struct Section {
    pub call: &'static str,
    pub refusals: Vec<Line>,
    pub codes: Vec<Line>,
    pub situations: Vec<Line>,
    /// Refusals that hold together.
    pub pairs: Vec<Line>,
}

impl Seen {
    /// Notes what ours made of a case, and what the case was aimed at.
    pub fn note(&mut self, case: &Case, ours: &Outcome, aim: Option<&Aim>) {
        *self.answers.entry((case.call, ours.answer)).or_default() += 1;
        let mut all = 0;
        if ours.answer == 0 && case.has("verdicts") {
            let details = case.bytes("batch").len() / 245 - 1;
            for verdict in ours.numbers(case, "verdicts").into_iter().take(details) {
                all |= verdict;
                for code in CODES.iter().filter(|&&code| verdict >> code & 1 == 1) {
                    *self.codes.entry((case.call, *code)).or_default() += 1;
                }
            }
        }
        if let Some(aim) = aim {
            let holds = match aim.target {
                Target::Rule(rule) => all >> RULES[rule].code & 1 == 1,
                Target::Refusal(number) => ours.answer == number,
                Target::Pair(first, _) => ours.answer == first,
                Target::Situation(_) => true,
            };
            *self.aims.entry((*aim, holds)).or_default() += 1;
        }
    }

    pub fn note_chain(&mut self, chain: usize) {
        *self.chains.entry(chain).or_default() += 1;
    }

    fn aimed(&self, aim: Aim, holds: bool) -> u64 {
        self.aims.get(&(aim, holds)).copied().unwrap_or(0)
    }

    /// The situations of a call, and its pairs of refusals.
    fn situations(&self, call: usize) -> (Vec<Line>, Vec<Line>) {
        let mut lines = Vec::new();
        let mut pairs = Vec::new();
        for aim in aims::of_call(call) {
            let mut put = |name: String, count: u64| lines.push(Line { name, count });
            match aim.target {
                Target::Rule(rule) if RULES[rule].code > 0 => {
                    put(
                        format!("{}: it holds", RULES[rule].name),
                        self.aimed(aim, true),
                    );
                    put(
                        format!("{}: it doesn't", RULES[rule].name),
                        self.aimed(aim, false),
                    );
                }
                Target::Rule(rule) => {
                    let count = self.aimed(aim, true) + self.aimed(aim, false);
                    put(RULES[rule].name.to_string(), count);
                }
                Target::Situation(at) => {
                    put(SITUATIONS[at].name.to_string(), self.aimed(aim, true))
                }
                Target::Refusal(number) => {
                    put(format!("just no refusal {number}"), self.aimed(aim, false));
                }
                Target::Pair(first, second) => {
                    let name = format!("refusals {first} and {second} together");
                    let count = self.aimed(aim, true);
                    pairs.push(Line { name, count });
                }
            }
        }
        (lines, pairs)
    }

    /// The table, by call.
    pub fn table(&self, calls: &[usize]) -> Vec<Section> {
        let section = |&call: &usize| {
            let spec = &CALLS[call];
            let answered = |&number: &u64| {
                let name = match number {
                    0 => "carried out".to_string(),
                    _ => format!("refusal {number}"),
                };
                let count = self.answers.get(&(call, number)).copied().unwrap_or(0);
                Line { name, count }
            };
            let refusals = [0].iter().chain(spec.refusals).map(answered).collect();
            let code = |&code: &u32| Line {
                name: format!("code {code:02}"),
                count: self.codes.get(&(call, code)).copied().unwrap_or(0),
            };
            let codes = match spec.argument("verdicts") {
                Some(_) => CODES.iter().map(code).collect(),
                None => Vec::new(),
            };
            let (situations, pairs) = self.situations(call);
            Section {
                call: spec.name,
                refusals,
                codes,
                situations,
                pairs,
            }
        };
        calls.iter().map(section).collect()
    }

    /// The chains of calls that these calls allow.
    pub fn chains(&self, calls: &[usize]) -> Vec<Line> {
        let lines = CHAINS.iter().enumerate();
        lines
            .filter(|(_, chain)| crate::run::allows(calls, chain.calls))
            .map(|(at, chain)| Line {
                name: chain.name.to_string(),
                count: self.chains.get(&at).copied().unwrap_or(0),
            })
            .collect()
    }

    /// What was never met.
    pub fn missing(&self, calls: &[usize]) -> Vec<String> {
        let mut missing = Vec::new();
        for section in self.table(calls) {
            let lines = section.refusals.iter().chain(&section.codes);
            let lines = lines.chain(&section.situations).chain(&section.pairs);
            for line in lines {
                if line.count == 0 {
                    missing.push(format!("{}: {}", section.call, line.name));
                }
            }
        }
        let chains = self.chains(calls);
        let never = chains.into_iter().filter(|line| line.count == 0);
        missing.extend(never.map(|line| line.name));
        missing
    }
}
