//! Refusals in the words of someone who runs the program: the files and the commands, in the place of calls and lent buffers. What is
//! wrong stays in the library's words.

use fantanolive::Refusal;

/// Where to look, and how to fix it.
pub struct Words {
    pub location: &'static str,
    pub fix: &'static str,
}

/// The words for a refusal that is met when a command is run; none for those about buffers, which the program lends right.
pub fn words_of(refusal: Refusal) -> Option<Words> {
    let (location, fix) = match refusal {
        Refusal::WrongYear => ("--year", "give the current calendar year in four digits"),
        Refusal::WrongLocals => ("the list of local codes (--locals)", "`fantanolive codes` writes such a list: three digits each, nothing between them, lowest first, none twice"),
        Refusal::WrongMaster => ("MASTER as a whole", "check that it is a master and was copied whole; a row has 200 bytes and no line end"),
        Refusal::UnsoundRow => ("a row of the master, or the order of the rows", "take the last good copy of the master; one from before the cents goes through `fantanolive add-cents` once"),
        Refusal::WrongBatch => ("BATCH as a whole", "write every record with 245 bytes, details first and the control record last; --lines takes a file of lines, `fantanolive build` makes a batch from CSV"),
        Refusal::NoCtl => ("the last record of the batch, columns 3-5", "`fantanolive control` puts the control record behind the details; --ascii or --lines is for a batch in ASCII"),
        Refusal::WrongCount => ("the control record, columns 6-14 (TANF records) and 15-23 (Non-TANF records)", "see first that no record was lost; then `fantanolive control` writes the right control record"),
        Refusal::WrongAmount => ("the control record, columns 24-34 (TANF amount) and 35-45 (Non-TANF amount)", "see first that no record was lost; then `fantanolive control` writes the right control record"),
        Refusal::NoRoom => ("the details with A in column 73 whose key has no row", "send fewer new cases: a master can't have more rows"),
        Refusal::WrongState => ("--state", "give the two letters of a state or territory"),
        Refusal::WrongDate => ("--date", "give a day that exists as eight digits: year, month, day"),
        Refusal::UnsoundKey => ("KEY: state, SSN and case type", "write the two letters of a state of the table, the nine digits of an SSN that is right, and A or N; hyphens or spaces may stand between them"),
        Refusal::NoSuchRow => ("MASTER and KEY", "check state, SSN and case type (A and N are two cases); `fantanolive show master MASTER --search NAME` looks for a name"),
        Refusal::NoCounterpart => ("the byte that is told below", "leave only upper case letters, digits, space and - , . ( ) / & ' # in the file; never convert a master"),
        Refusal::WrongContacts => ("the contact file, or TABLE", "contact records have 220 bytes; for TABLE take only what `fantanolive contacts` has written, or start with --new"),
        Refusal::ControlState => ("the control record, columns 1-2", "put the two letters of the submitting state there; `fantanolive control --state` writes it"),
        Refusal::ControlForm => ("the control record, columns 6-45 (four totals) and 46-245 (filler)", "`fantanolive control` writes the right control record"),
        Refusal::WrongFile => ("the collection file as a whole", "check that it was copied whole; a record has 240 bytes, and the last one is the TOTAL record; --lines takes a file of lines"),
        Refusal::WrongTotal => ("the collection file's last record, columns 6-14 (TOTAL), 35-49 (adjustments) and 50-64 (collections)", "check that the file is whole; --ascii or --lines is for a file in ASCII; if the counts differ, get the file again"),
        Refusal::WrongJournal => ("JOURNAL, and the master that it goes with", "take the journal that `apply --journal` wrote of the last batch on this master; a batch is taken back once"),
        Refusal::NoRecords => ("the values that are wanted", "names, addresses and deleted cases need other records; a local code must be in the list, a case ID not blank"),
        Refusal::CannotMerge => ("the batches: their states, how many details they have, and their amounts", "send the batches one behind the other"),
        _ => return None,
    };
    Some(Words { location, fix })
}

#[cfg(test)]
mod tests {
    use super::*;
    use crate::mask::masked;

    #[test]
    fn no_word_of_calls_and_buffers() {
        let known = Refusal::ALL.into_iter().filter_map(words_of);
        for words in known {
            for text in [words.location, words.fix] {
                for none in [" lend", "buffer", "_", "byte by byte", "mend", "apply:"] {
                    assert!(!text.contains(none), "{text}");
                }
                // an example that is an SSN would be shown with stars
                assert_eq!(masked(text), text);
            }
        }
    }
}
