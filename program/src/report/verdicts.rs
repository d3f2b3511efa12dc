//! What was found in a batch: how often each code, and each record with an error or a warning.

use std::cell::RefCell;
use std::io;

use fantanolive::{code_text, codes, has_code, ERRORS, KEY, RECORD, ROW, WARNINGS};

use crate::records::address_faults::{AddressFaults, Parts, ADDRESS};
use crate::records::code_fields::{fields_of, is_blank, name_of};
use crate::records::columns::{detail, reject, row, Field};
use crate::records::field::Form;
use crate::report::listing::Listing;
use crate::report::ssn_fault;

/// The code with which the stored name goes, and the one with what is wrong with the SSN.
pub const NAME_DIFFERS: u32 = 17;
pub const WRONG_SSN: u32 = 2;

pub struct Verdicts<'a> {
    /// The batch in EBCDIC.
    pub batch: &'a [u8],
    /// A verdict per detail.
    pub verdicts: &'a [u64],
    pub rejects: &'a [u8],
    /// The rows that the batch leaves.
    pub rows: &'a [u8],
    /// How fields of the batch and of the reject file are written.
    pub of_details: Form,
    pub of_rejects: Form,
    /// What the library said of addresses.
    pub address: RefCell<AddressFaults>,
}

/// A detail with a code: its number from 0, its verdict and its reject record.
pub struct Coded<'a> {
    pub number: usize,
    pub verdict: u64,
    pub detail: &'a [u8],
    pub reject: &'a [u8],
    /// What of its address is wrong, where `each` gives it out.
    wrong_parts: Parts,
}

/// How many details the library is asked about at once.
const AT_ONCE: usize = 128;

impl<'a> Verdicts<'a> {
    /// The details with a code of a set, in batch order. The reject file has a record for each detail with any code.
    pub fn coded(&self, set: u64) -> impl Iterator<Item = Coded<'a>> {
        let with_code = self.verdicts.iter().enumerate().filter(|(_, v)| **v != 0);
        let rejects = self.rejects.chunks_exact(RECORD);
        let coded = with_code
            .zip(rejects)
            .map(|((number, &verdict), reject)| Coded {
                number,
                verdict,
                detail: &self.batch[number * RECORD..][..RECORD],
                reject,
                wrong_parts: Parts::default(),
            });
        coded.filter(move |coded| coded.verdict & set != 0)
    }

    /// The same with the details of each local office together, in order of its code.
    pub fn coded_by_office(&self, set: u64) -> Vec<Coded<'a>> {
        let mut list: Vec<Coded> = self.coded(set).collect();
        // the sort keeps the order of equal codes
        list.sort_by_cached_key(|coded| self.office(coded.detail));
        list
    }

    /// The first details with a code, for files and JSON: those of a list that is cut have the ones with an error first.
    pub fn for_files(
        &self,
        listing: &Listing,
        by_office: bool,
    ) -> Box<dyn Iterator<Item = Coded<'a>> + '_> {
        let of = |set| -> Box<dyn Iterator<Item = Coded<'a>> + '_> {
            match by_office {
                true => Box::new(self.coded_by_office(set).into_iter()),
                false => Box::new(self.coded(set)),
            }
        };
        let (all, most) = (ERRORS | WARNINGS, listing.most_in_files);
        if self.count(all) <= most {
            return of(all);
        }
        let is_warned = |coded: &Coded| coded.verdict & ERRORS == 0;
        Box::new(of(ERRORS).chain(of(WARNINGS).filter(is_warned)).take(most))
    }

    /// The local code of a detail, or where that is blank the one of its case's row; blank where there is none.
    pub fn office<'b>(&'b self, detail: &'b [u8]) -> &'b [u8] {
        let own = detail::LOCAL_CODE.of(detail);
        if !is_blank(&detail::LOCAL_CODE, detail) {
            return own;
        }
        let key = [detail::STATE, detail::SSN, detail::CASE_TYPE].map(|part| part.of(detail));
        let key = key.concat();
        let (rows, _) = self.rows.as_chunks::<ROW>();
        match rows.binary_search_by(|row| row[..KEY].cmp(&key)) {
            Ok(place) => row::LOCAL_CODE.of(&rows[place]),
            Err(_) => own,
        }
    }

    /// How many details have a code of a set.
    pub fn count(&self, set: u64) -> usize {
        self.verdicts.iter().filter(|&v| v & set != 0).count()
    }

    /// How many details have each code that any has, the most frequent first.
    pub fn counts(&self) -> Vec<(u32, u64)> {
        let mut counts = [0; 64];
        for &verdict in self.verdicts {
            for code in codes(verdict) {
                counts[code as usize] += 1;
            }
        }
        let counted = (0..64).zip(counts);
        let mut list: Vec<(u32, u64)> = counted.filter(|&(_, count)| count > 0).collect();
        list.sort_by_key(|&(code, count)| (std::cmp::Reverse(count), code));
        list
    }

    /// The local offices with details to fix or with a warning: the code as it is shown, empty where there is none, and how many
    /// of each.
    pub fn offices(&self) -> Vec<(String, u64, u64)> {
        let mut list: Vec<(&[u8], u64, u64)> = Vec::new();
        for coded in self.coded_by_office(ERRORS | WARNINGS) {
            let office = self.office(coded.detail);
            if list.last().is_none_or(|(last, _, _)| *last != office) {
                list.push((office, 0, 0));
            }
            if let Some((_, errors, warnings)) = list.last_mut() {
                *errors += u64::from(coded.verdict & ERRORS != 0);
                *warnings += u64::from(coded.verdict & ERRORS == 0);
            }
        }
        let shown = |(office, errors, warnings)| {
            let mut text = String::new();
            self.of_details.put_text(office, &mut text);
            (text, errors, warnings)
        };
        list.into_iter().map(shown).collect()
    }

    /// Gives out details one by one with what of their addresses is wrong, which the library is asked about many at once.
    pub fn each(
        &self,
        mut coded: impl Iterator<Item = Coded<'a>>,
        mut put: impl FnMut(&Coded) -> io::Result<()>,
    ) -> io::Result<()> {
        let mut some: Vec<Coded> = Vec::new();
        loop {
            some.clear();
            some.extend(coded.by_ref().take(AT_ONCE));
            if some.is_empty() {
                return Ok(());
            }
            self.find_wrong_parts(&mut some);
            some.iter().try_for_each(&mut put)?;
        }
    }

    fn find_wrong_parts(&self, coded: &mut [Coded]) {
        let with_code = || coded.iter().filter(|coded| coded.has(ADDRESS));
        let details: Vec<&[u8]> = with_code().map(|coded| coded.detail).collect();
        let wrong = self.address.borrow_mut().wrong_parts(&details);
        let with_code = coded.iter_mut().filter(|coded| coded.has(ADDRESS));
        for (coded, parts) in with_code.zip(wrong) {
            coded.wrong_parts = parts;
        }
    }

    /// Writes `Obligor Last Name 'SMYTH', stored 'SMIT'`: the fields that a code is about as they were sent, and what is known
    /// beside them, the stored name or what is wrong with the SSN.
    pub fn put_sent_words(&self, code: u32, coded: &Coded, out: &mut String) {
        let mut between = "";
        for field in coded.fields_of(code) {
            out.push_str(between);
            out.push_str(&name_of(field));
            self.put_value(field, coded.detail, out);
            between = ", ";
        }
        if code == NAME_DIFFERS {
            out.push_str(between);
            out.push_str("stored '");
            self.of_rejects.put(&reject::STORED_NAME, coded.reject, out);
            out.push('\'');
        }
        let fault = (code == WRONG_SSN).then(|| coded.ssn_fault()).flatten();
        if let Some(fault) = fault {
            out.push_str(between);
            out.push_str(&fault);
        }
    }

    /// Writes ` 'SMYTH'` or ` blank`.
    fn put_value(&self, field: &Field, detail: &[u8], out: &mut String) {
        if is_blank(field, detail) {
            out.push_str(" blank");
            return;
        }
        out.push_str(" '");
        self.of_details.put(field, detail, out);
        out.push('\'');
    }

    /// Writes the key of a detail.
    pub fn put_key(&self, coded: &Coded, out: &mut String) {
        let key = &[detail::STATE, detail::SSN, detail::CASE_TYPE];
        self.of_details.put_key(key, coded.detail, out);
    }
}

impl Coded<'_> {
    /// The fields that a code is about.
    pub fn fields_of(&self, code: u32) -> impl Iterator<Item = &'static Field> {
        let of_address = match code {
            ADDRESS => self.wrong_parts,
            _ => Parts::default(),
        };
        fields_of(code).iter().chain(of_address.fields())
    }

    pub fn ssn_fault(&self) -> Option<String> {
        ssn_fault::of_ssn(detail::SSN.of(self.detail))
    }

    pub fn has(&self, code: u32) -> bool {
        has_code(self.verdict, code)
    }
}

/// A local code as a table has it.
pub fn shown_office(code: &str) -> String {
    match code {
        "" => "no local code".to_string(),
        code => code.to_string(),
    }
}

/// What is wrong by a code.
pub fn wrong_of(code: u32) -> &'static str {
    code_text(code).map_or("", |text| text.wrong)
}
