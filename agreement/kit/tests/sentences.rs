//! Every sentence that the kit names stands in docs/RULES.md.

use agreement::explain::{sentence, sentences, CODES, FIELDS, OTHERS, REFUSALS, TYPES};

#[test]
fn named_sentences_are_there() {
    assert!(sentences().len() > 200, "{}", sentences().len());
    let codes = CODES.iter().map(|(_, start)| start);
    let refusals = REFUSALS.iter().map(|(_, _, start)| start);
    let fields = FIELDS.iter().map(|(_, _, start)| start);
    let types = TYPES.iter().map(|(_, start)| start);
    let all = codes.chain(refusals).chain(fields).chain(types);
    let missing: Vec<_> = all
        .chain(&OTHERS)
        .filter(|start| sentence(start).is_none())
        .collect();
    assert!(missing.is_empty(), "{missing:?}");
}
