//! Rows and records as structs: every field a text in Unicode, without the spaces at its end, but the exclusion set of a row.
//!
//! Written by bin/generate-layouts from package/layouts.json; not to be edited.
//!
//! [`Record::read`] takes the bytes of a record and [`Record::write`] gives them; what was read is written as the same bytes,
//! whatever they are. Numbers have functions of their own: `arrearage_number` is none where the columns aren't digits. Nothing
//! is judged here: that is the part of the calls. `{:?}` shows no SSN.

use std::fmt;

use crate::fields::{self, Field, Kind, Record, Unfit};

/// The names of the exclusions in the set of a row, the lowest bit first.
pub const EXCLUSIONS: [&str; 8] = ["ADM", "RET", "VEN", "SAL", "TAX", "PAS", "FIN", "DCK"];

/// A row of the master (a case's row, 200 bytes).
#[derive(Clone, Default, PartialEq, Eq, Hash)]
pub struct Row {
    /// Submitting State Code, columns 1–2: key.
    pub state: String,
    /// SSN, columns 3–11: key.
    pub ssn: String,
    /// Case Type Indicator, column 12: key: A or N.
    pub case_type: String,
    /// Local Code, columns 13–15: three digits; 000 is the state's own.
    pub local_code: String,
    /// Case ID, columns 16–30: the state's own, free.
    pub case_id: String,
    /// Obligor Last Name, columns 31–50: 31-34 are compared with the name of later records.
    pub last_name: String,
    /// Obligor First Name, columns 51–65.
    pub first_name: String,
    /// Arrearage Amount, columns 66–73: whole dollars, eight digits.
    pub arrearage: String,
    /// Transfer State Code, columns 74–75: blank until a T.
    pub transfer_state: String,
    /// Transfer Local Code, columns 76–78: blank until a T.
    pub transfer_local_code: String,
    /// Payment Year, columns 79–82: 0000 until an S.
    pub payment_year: String,
    /// Accumulated Payment Amount, columns 83–90: eight digits, zeros until an S.
    pub payment: String,
    /// Obligor Address Line 1, columns 91–120.
    pub address_line_1: String,
    /// Obligor Address Line 2, columns 121–150.
    pub address_line_2: String,
    /// Obligor City, columns 151–175.
    pub city: String,
    /// Obligor State, columns 176–177.
    pub address_state: String,
    /// Obligor Zip Code, columns 178–186.
    pub zip: String,
    /// Date Issued, columns 187–194: CCYYMMDD of the notice, or blank.
    pub date_issued: String,
    /// Exclusion Indicator(s), column 195: one binary byte; bits, lowest first: ADM RET VEN SAL TAX PAS FIN DCK; 00 is the empty set.
    pub exclusions: u8,
    /// Status, column 196: space is live, D is deleted.
    pub status: String,
    /// Cents, columns 197–198: two digits.
    pub cents: String,
    /// Filler, columns 199–200: spaces.
    pub filler: String,
}

impl Record for Row {
    const NAME: &'static str = "row";
    const WIDTH: usize = 200;
    const FIELDS: &'static [Field] = &[
        Field { name: "state", title: "Submitting State Code", first: 1, last: 2, kind: Kind::Text },
        Field { name: "ssn", title: "SSN", first: 3, last: 11, kind: Kind::Ssn },
        Field { name: "case_type", title: "Case Type Indicator", first: 12, last: 12, kind: Kind::Text },
        Field { name: "local_code", title: "Local Code", first: 13, last: 15, kind: Kind::Text },
        Field { name: "case_id", title: "Case ID", first: 16, last: 30, kind: Kind::Text },
        Field { name: "last_name", title: "Obligor Last Name", first: 31, last: 50, kind: Kind::Text },
        Field { name: "first_name", title: "Obligor First Name", first: 51, last: 65, kind: Kind::Text },
        Field { name: "arrearage", title: "Arrearage Amount", first: 66, last: 73, kind: Kind::Number },
        Field { name: "transfer_state", title: "Transfer State Code", first: 74, last: 75, kind: Kind::Text },
        Field { name: "transfer_local_code", title: "Transfer Local Code", first: 76, last: 78, kind: Kind::Text },
        Field { name: "payment_year", title: "Payment Year", first: 79, last: 82, kind: Kind::Number },
        Field { name: "payment", title: "Accumulated Payment Amount", first: 83, last: 90, kind: Kind::Number },
        Field { name: "address_line_1", title: "Obligor Address Line 1", first: 91, last: 120, kind: Kind::Text },
        Field { name: "address_line_2", title: "Obligor Address Line 2", first: 121, last: 150, kind: Kind::Text },
        Field { name: "city", title: "Obligor City", first: 151, last: 175, kind: Kind::Text },
        Field { name: "address_state", title: "Obligor State", first: 176, last: 177, kind: Kind::Text },
        Field { name: "zip", title: "Obligor Zip Code", first: 178, last: 186, kind: Kind::Text },
        Field { name: "date_issued", title: "Date Issued", first: 187, last: 194, kind: Kind::Date },
        Field { name: "exclusions", title: "Exclusion Indicator(s)", first: 195, last: 195, kind: Kind::Set },
        Field { name: "status", title: "Status", first: 196, last: 196, kind: Kind::Text },
        Field { name: "cents", title: "Cents", first: 197, last: 198, kind: Kind::Number },
        Field { name: "filler", title: "Filler", first: 199, last: 200, kind: Kind::Filler },
    ];

    fn read(record: &[u8]) -> Option<Self> {
        (record.len() == Self::WIDTH).then_some(())?;
        Some(Row {
            state: fields::text(record, 1, 2),
            ssn: fields::text(record, 3, 11),
            case_type: fields::text(record, 12, 12),
            local_code: fields::text(record, 13, 15),
            case_id: fields::text(record, 16, 30),
            last_name: fields::text(record, 31, 50),
            first_name: fields::text(record, 51, 65),
            arrearage: fields::text(record, 66, 73),
            transfer_state: fields::text(record, 74, 75),
            transfer_local_code: fields::text(record, 76, 78),
            payment_year: fields::text(record, 79, 82),
            payment: fields::text(record, 83, 90),
            address_line_1: fields::text(record, 91, 120),
            address_line_2: fields::text(record, 121, 150),
            city: fields::text(record, 151, 175),
            address_state: fields::text(record, 176, 177),
            zip: fields::text(record, 178, 186),
            date_issued: fields::text(record, 187, 194),
            exclusions: *record.get(194)?,
            status: fields::text(record, 196, 196),
            cents: fields::text(record, 197, 198),
            filler: fields::text(record, 199, 200),
        })
    }

    fn write(&self) -> Result<Vec<u8>, Unfit> {
        let mut record = vec![0x40; Self::WIDTH];
        fields::put(&mut record, &Self::FIELDS[0], &self.state)?;
        fields::put(&mut record, &Self::FIELDS[1], &self.ssn)?;
        fields::put(&mut record, &Self::FIELDS[2], &self.case_type)?;
        fields::put(&mut record, &Self::FIELDS[3], &self.local_code)?;
        fields::put(&mut record, &Self::FIELDS[4], &self.case_id)?;
        fields::put(&mut record, &Self::FIELDS[5], &self.last_name)?;
        fields::put(&mut record, &Self::FIELDS[6], &self.first_name)?;
        fields::put(&mut record, &Self::FIELDS[7], &self.arrearage)?;
        fields::put(&mut record, &Self::FIELDS[8], &self.transfer_state)?;
        fields::put(&mut record, &Self::FIELDS[9], &self.transfer_local_code)?;
        fields::put(&mut record, &Self::FIELDS[10], &self.payment_year)?;
        fields::put(&mut record, &Self::FIELDS[11], &self.payment)?;
        fields::put(&mut record, &Self::FIELDS[12], &self.address_line_1)?;
        fields::put(&mut record, &Self::FIELDS[13], &self.address_line_2)?;
        fields::put(&mut record, &Self::FIELDS[14], &self.city)?;
        fields::put(&mut record, &Self::FIELDS[15], &self.address_state)?;
        fields::put(&mut record, &Self::FIELDS[16], &self.zip)?;
        fields::put(&mut record, &Self::FIELDS[17], &self.date_issued)?;
        record[194] = self.exclusions;
        fields::put(&mut record, &Self::FIELDS[19], &self.status)?;
        fields::put(&mut record, &Self::FIELDS[20], &self.cents)?;
        fields::put(&mut record, &Self::FIELDS[21], &self.filler)?;
        Ok(record)
    }

    fn texts(&self) -> Vec<String> {
        vec![
            self.state.clone(),
            self.ssn.clone(),
            self.case_type.clone(),
            self.local_code.clone(),
            self.case_id.clone(),
            self.last_name.clone(),
            self.first_name.clone(),
            self.arrearage.clone(),
            self.transfer_state.clone(),
            self.transfer_local_code.clone(),
            self.payment_year.clone(),
            self.payment.clone(),
            self.address_line_1.clone(),
            self.address_line_2.clone(),
            self.city.clone(),
            self.address_state.clone(),
            self.zip.clone(),
            self.date_issued.clone(),
            fields::set_text(self.exclusions),
            self.status.clone(),
            self.cents.clone(),
            self.filler.clone(),
        ]
    }

    fn numbers(&self) -> Vec<Option<u64>> {
        vec![
            None,
            None,
            None,
            None,
            None,
            None,
            None,
            self.arrearage_number(),
            None,
            None,
            self.payment_year_number(),
            self.payment_number(),
            None,
            None,
            None,
            None,
            None,
            None,
            Some(u64::from(self.exclusions)),
            None,
            self.cents_number(),
            None,
        ]
    }
}

impl Row {
    /// Arrearage Amount as a number; none where it isn't 8 digits.
    pub fn arrearage_number(&self) -> Option<u64> {
        fields::number(&self.arrearage, 8)
    }

    /// Sets Arrearage Amount, 8 digits.
    ///
    /// # Errors
    ///
    /// A number of more digits; the record is then as before.
    pub fn set_arrearage_number(&mut self, number: u64) -> Result<(), Unfit> {
        self.arrearage = fields::digits("arrearage", 8, number)?;
        Ok(())
    }

    /// Payment Year as a number; none where it isn't 4 digits.
    pub fn payment_year_number(&self) -> Option<u64> {
        fields::number(&self.payment_year, 4)
    }

    /// Sets Payment Year, 4 digits.
    ///
    /// # Errors
    ///
    /// A number of more digits; the record is then as before.
    pub fn set_payment_year_number(&mut self, number: u64) -> Result<(), Unfit> {
        self.payment_year = fields::digits("payment_year", 4, number)?;
        Ok(())
    }

    /// Accumulated Payment Amount as a number; none where it isn't 8 digits.
    pub fn payment_number(&self) -> Option<u64> {
        fields::number(&self.payment, 8)
    }

    /// Sets Accumulated Payment Amount, 8 digits.
    ///
    /// # Errors
    ///
    /// A number of more digits; the record is then as before.
    pub fn set_payment_number(&mut self, number: u64) -> Result<(), Unfit> {
        self.payment = fields::digits("payment", 8, number)?;
        Ok(())
    }

    /// Cents as a number; none where it isn't 2 digits.
    pub fn cents_number(&self) -> Option<u64> {
        fields::number(&self.cents, 2)
    }

    /// Sets Cents, 2 digits.
    ///
    /// # Errors
    ///
    /// A number of more digits; the record is then as before.
    pub fn set_cents_number(&mut self, number: u64) -> Result<(), Unfit> {
        self.cents = fields::digits("cents", 2, number)?;
        Ok(())
    }
}

impl fmt::Debug for Row {
    fn fmt(&self, f: &mut fmt::Formatter<'_>) -> fmt::Result {
        fields::debug(self, "Row", f)
    }
}

/// A detail of a batch (Chart A-1, 245 bytes).
#[derive(Clone, Default, PartialEq, Eq, Hash)]
pub struct Detail {
    /// Submitting State Code, columns 1–2: the submitting state, that of the control record; key.
    pub state: String,
    /// Local Code, columns 3–5: A and L.
    pub local_code: String,
    /// SSN, columns 6–14: key.
    pub ssn: String,
    /// Case ID, columns 15–29: A and C.
    pub case_id: String,
    /// Obligor Last Name, columns 30–49: all types; stored by A and B.
    pub last_name: String,
    /// Obligor First Name, columns 50–64: A and B.
    pub first_name: String,
    /// Arrearage Amount, columns 65–72: A and M: whole dollars; S: the accumulated payment.
    pub arrearage: String,
    /// Transaction Type, column 73: A B C D L M R S T Z.
    pub transaction_type: String,
    /// Case Type Indicator, column 74: A or N; key.
    pub case_type: String,
    /// Transfer State Code, columns 75–76: T.
    pub transfer_state: String,
    /// Transfer Local Code, columns 77–79: T; may be blank.
    pub transfer_local_code: String,
    /// Process Year, columns 80–83: S.
    pub process_year: String,
    /// Obligor Address Line 1, columns 84–113: A and Z.
    pub address_line_1: String,
    /// Obligor Address Line 2, columns 114–143: A and Z.
    pub address_line_2: String,
    /// Obligor City, columns 144–168: A and Z.
    pub city: String,
    /// Obligor State, columns 169–170: A and Z.
    pub address_state: String,
    /// Obligor Zip Code, columns 171–179: A and Z: nine digits, or five and four spaces.
    pub zip: String,
    /// Date Issued, columns 180–187: A: CCYYMMDD, or blank.
    pub date_issued: String,
    /// Exclusion Indicator(s), columns 188–227: A and R: words with commas or spaces between them.
    pub exclusions: String,
    /// Filler, columns 228–244: spaces.
    pub filler: String,
    /// Request Code, column 245: not looked at.
    pub request_code: String,
}

impl Record for Detail {
    const NAME: &'static str = "detail";
    const WIDTH: usize = 245;
    const FIELDS: &'static [Field] = &[
        Field { name: "state", title: "Submitting State Code", first: 1, last: 2, kind: Kind::Text },
        Field { name: "local_code", title: "Local Code", first: 3, last: 5, kind: Kind::Text },
        Field { name: "ssn", title: "SSN", first: 6, last: 14, kind: Kind::Ssn },
        Field { name: "case_id", title: "Case ID", first: 15, last: 29, kind: Kind::Text },
        Field { name: "last_name", title: "Obligor Last Name", first: 30, last: 49, kind: Kind::Text },
        Field { name: "first_name", title: "Obligor First Name", first: 50, last: 64, kind: Kind::Text },
        Field { name: "arrearage", title: "Arrearage Amount", first: 65, last: 72, kind: Kind::Number },
        Field { name: "transaction_type", title: "Transaction Type", first: 73, last: 73, kind: Kind::Text },
        Field { name: "case_type", title: "Case Type Indicator", first: 74, last: 74, kind: Kind::Text },
        Field { name: "transfer_state", title: "Transfer State Code", first: 75, last: 76, kind: Kind::Text },
        Field { name: "transfer_local_code", title: "Transfer Local Code", first: 77, last: 79, kind: Kind::Text },
        Field { name: "process_year", title: "Process Year", first: 80, last: 83, kind: Kind::Number },
        Field { name: "address_line_1", title: "Obligor Address Line 1", first: 84, last: 113, kind: Kind::Text },
        Field { name: "address_line_2", title: "Obligor Address Line 2", first: 114, last: 143, kind: Kind::Text },
        Field { name: "city", title: "Obligor City", first: 144, last: 168, kind: Kind::Text },
        Field { name: "address_state", title: "Obligor State", first: 169, last: 170, kind: Kind::Text },
        Field { name: "zip", title: "Obligor Zip Code", first: 171, last: 179, kind: Kind::Text },
        Field { name: "date_issued", title: "Date Issued", first: 180, last: 187, kind: Kind::Date },
        Field { name: "exclusions", title: "Exclusion Indicator(s)", first: 188, last: 227, kind: Kind::Text },
        Field { name: "filler", title: "Filler", first: 228, last: 244, kind: Kind::Filler },
        Field { name: "request_code", title: "Request Code", first: 245, last: 245, kind: Kind::Text },
    ];

    fn read(record: &[u8]) -> Option<Self> {
        (record.len() == Self::WIDTH).then_some(())?;
        Some(Detail {
            state: fields::text(record, 1, 2),
            local_code: fields::text(record, 3, 5),
            ssn: fields::text(record, 6, 14),
            case_id: fields::text(record, 15, 29),
            last_name: fields::text(record, 30, 49),
            first_name: fields::text(record, 50, 64),
            arrearage: fields::text(record, 65, 72),
            transaction_type: fields::text(record, 73, 73),
            case_type: fields::text(record, 74, 74),
            transfer_state: fields::text(record, 75, 76),
            transfer_local_code: fields::text(record, 77, 79),
            process_year: fields::text(record, 80, 83),
            address_line_1: fields::text(record, 84, 113),
            address_line_2: fields::text(record, 114, 143),
            city: fields::text(record, 144, 168),
            address_state: fields::text(record, 169, 170),
            zip: fields::text(record, 171, 179),
            date_issued: fields::text(record, 180, 187),
            exclusions: fields::text(record, 188, 227),
            filler: fields::text(record, 228, 244),
            request_code: fields::text(record, 245, 245),
        })
    }

    fn write(&self) -> Result<Vec<u8>, Unfit> {
        let mut record = vec![0x40; Self::WIDTH];
        fields::put(&mut record, &Self::FIELDS[0], &self.state)?;
        fields::put(&mut record, &Self::FIELDS[1], &self.local_code)?;
        fields::put(&mut record, &Self::FIELDS[2], &self.ssn)?;
        fields::put(&mut record, &Self::FIELDS[3], &self.case_id)?;
        fields::put(&mut record, &Self::FIELDS[4], &self.last_name)?;
        fields::put(&mut record, &Self::FIELDS[5], &self.first_name)?;
        fields::put(&mut record, &Self::FIELDS[6], &self.arrearage)?;
        fields::put(&mut record, &Self::FIELDS[7], &self.transaction_type)?;
        fields::put(&mut record, &Self::FIELDS[8], &self.case_type)?;
        fields::put(&mut record, &Self::FIELDS[9], &self.transfer_state)?;
        fields::put(&mut record, &Self::FIELDS[10], &self.transfer_local_code)?;
        fields::put(&mut record, &Self::FIELDS[11], &self.process_year)?;
        fields::put(&mut record, &Self::FIELDS[12], &self.address_line_1)?;
        fields::put(&mut record, &Self::FIELDS[13], &self.address_line_2)?;
        fields::put(&mut record, &Self::FIELDS[14], &self.city)?;
        fields::put(&mut record, &Self::FIELDS[15], &self.address_state)?;
        fields::put(&mut record, &Self::FIELDS[16], &self.zip)?;
        fields::put(&mut record, &Self::FIELDS[17], &self.date_issued)?;
        fields::put(&mut record, &Self::FIELDS[18], &self.exclusions)?;
        fields::put(&mut record, &Self::FIELDS[19], &self.filler)?;
        fields::put(&mut record, &Self::FIELDS[20], &self.request_code)?;
        Ok(record)
    }

    fn texts(&self) -> Vec<String> {
        vec![
            self.state.clone(),
            self.local_code.clone(),
            self.ssn.clone(),
            self.case_id.clone(),
            self.last_name.clone(),
            self.first_name.clone(),
            self.arrearage.clone(),
            self.transaction_type.clone(),
            self.case_type.clone(),
            self.transfer_state.clone(),
            self.transfer_local_code.clone(),
            self.process_year.clone(),
            self.address_line_1.clone(),
            self.address_line_2.clone(),
            self.city.clone(),
            self.address_state.clone(),
            self.zip.clone(),
            self.date_issued.clone(),
            self.exclusions.clone(),
            self.filler.clone(),
            self.request_code.clone(),
        ]
    }

    fn numbers(&self) -> Vec<Option<u64>> {
        vec![
            None,
            None,
            None,
            None,
            None,
            None,
            self.arrearage_number(),
            None,
            None,
            None,
            None,
            self.process_year_number(),
            None,
            None,
            None,
            None,
            None,
            None,
            None,
            None,
            None,
        ]
    }
}

impl Detail {
    /// Arrearage Amount as a number; none where it isn't 8 digits.
    pub fn arrearage_number(&self) -> Option<u64> {
        fields::number(&self.arrearage, 8)
    }

    /// Sets Arrearage Amount, 8 digits.
    ///
    /// # Errors
    ///
    /// A number of more digits; the record is then as before.
    pub fn set_arrearage_number(&mut self, number: u64) -> Result<(), Unfit> {
        self.arrearage = fields::digits("arrearage", 8, number)?;
        Ok(())
    }

    /// Process Year as a number; none where it isn't 4 digits.
    pub fn process_year_number(&self) -> Option<u64> {
        fields::number(&self.process_year, 4)
    }

    /// Sets Process Year, 4 digits.
    ///
    /// # Errors
    ///
    /// A number of more digits; the record is then as before.
    pub fn set_process_year_number(&mut self, number: u64) -> Result<(), Unfit> {
        self.process_year = fields::digits("process_year", 4, number)?;
        Ok(())
    }
}

impl fmt::Debug for Detail {
    fn fmt(&self, f: &mut fmt::Formatter<'_>) -> fmt::Result {
        fields::debug(self, "Detail", f)
    }
}

/// The control record of a batch (Chart A-2, 245 bytes).
#[derive(Clone, Default, PartialEq, Eq, Hash)]
pub struct Control {
    /// Submitting State Code, columns 1–2: the submitting state.
    pub state: String,
    /// Control, columns 3–5: CTL.
    pub mark: String,
    /// Total TANF Records, columns 6–14: details with case type A, nine digits.
    pub tanf_records: String,
    /// Total Non-TANF Records, columns 15–23: details with case type N, nine digits.
    pub non_tanf_records: String,
    /// Total TANF Amount, columns 24–34: dollars of A and M details with case type A, eleven digits.
    pub tanf_amount: String,
    /// Total Non-TANF Amount, columns 35–45: dollars of A and M details with case type N, eleven digits.
    pub non_tanf_amount: String,
    /// Filler, columns 46–245: spaces.
    pub filler: String,
}

impl Record for Control {
    const NAME: &'static str = "control";
    const WIDTH: usize = 245;
    const FIELDS: &'static [Field] = &[
        Field { name: "state", title: "Submitting State Code", first: 1, last: 2, kind: Kind::Text },
        Field { name: "mark", title: "Control", first: 3, last: 5, kind: Kind::Text },
        Field { name: "tanf_records", title: "Total TANF Records", first: 6, last: 14, kind: Kind::Number },
        Field { name: "non_tanf_records", title: "Total Non-TANF Records", first: 15, last: 23, kind: Kind::Number },
        Field { name: "tanf_amount", title: "Total TANF Amount", first: 24, last: 34, kind: Kind::Number },
        Field { name: "non_tanf_amount", title: "Total Non-TANF Amount", first: 35, last: 45, kind: Kind::Number },
        Field { name: "filler", title: "Filler", first: 46, last: 245, kind: Kind::Filler },
    ];

    fn read(record: &[u8]) -> Option<Self> {
        (record.len() == Self::WIDTH).then_some(())?;
        Some(Control {
            state: fields::text(record, 1, 2),
            mark: fields::text(record, 3, 5),
            tanf_records: fields::text(record, 6, 14),
            non_tanf_records: fields::text(record, 15, 23),
            tanf_amount: fields::text(record, 24, 34),
            non_tanf_amount: fields::text(record, 35, 45),
            filler: fields::text(record, 46, 245),
        })
    }

    fn write(&self) -> Result<Vec<u8>, Unfit> {
        let mut record = vec![0x40; Self::WIDTH];
        fields::put(&mut record, &Self::FIELDS[0], &self.state)?;
        fields::put(&mut record, &Self::FIELDS[1], &self.mark)?;
        fields::put(&mut record, &Self::FIELDS[2], &self.tanf_records)?;
        fields::put(&mut record, &Self::FIELDS[3], &self.non_tanf_records)?;
        fields::put(&mut record, &Self::FIELDS[4], &self.tanf_amount)?;
        fields::put(&mut record, &Self::FIELDS[5], &self.non_tanf_amount)?;
        fields::put(&mut record, &Self::FIELDS[6], &self.filler)?;
        Ok(record)
    }

    fn texts(&self) -> Vec<String> {
        vec![
            self.state.clone(),
            self.mark.clone(),
            self.tanf_records.clone(),
            self.non_tanf_records.clone(),
            self.tanf_amount.clone(),
            self.non_tanf_amount.clone(),
            self.filler.clone(),
        ]
    }

    fn numbers(&self) -> Vec<Option<u64>> {
        vec![
            None,
            None,
            self.tanf_records_number(),
            self.non_tanf_records_number(),
            self.tanf_amount_number(),
            self.non_tanf_amount_number(),
            None,
        ]
    }
}

impl Control {
    /// Total TANF Records as a number; none where it isn't 9 digits.
    pub fn tanf_records_number(&self) -> Option<u64> {
        fields::number(&self.tanf_records, 9)
    }

    /// Sets Total TANF Records, 9 digits.
    ///
    /// # Errors
    ///
    /// A number of more digits; the record is then as before.
    pub fn set_tanf_records_number(&mut self, number: u64) -> Result<(), Unfit> {
        self.tanf_records = fields::digits("tanf_records", 9, number)?;
        Ok(())
    }

    /// Total Non-TANF Records as a number; none where it isn't 9 digits.
    pub fn non_tanf_records_number(&self) -> Option<u64> {
        fields::number(&self.non_tanf_records, 9)
    }

    /// Sets Total Non-TANF Records, 9 digits.
    ///
    /// # Errors
    ///
    /// A number of more digits; the record is then as before.
    pub fn set_non_tanf_records_number(&mut self, number: u64) -> Result<(), Unfit> {
        self.non_tanf_records = fields::digits("non_tanf_records", 9, number)?;
        Ok(())
    }

    /// Total TANF Amount as a number; none where it isn't 11 digits.
    pub fn tanf_amount_number(&self) -> Option<u64> {
        fields::number(&self.tanf_amount, 11)
    }

    /// Sets Total TANF Amount, 11 digits.
    ///
    /// # Errors
    ///
    /// A number of more digits; the record is then as before.
    pub fn set_tanf_amount_number(&mut self, number: u64) -> Result<(), Unfit> {
        self.tanf_amount = fields::digits("tanf_amount", 11, number)?;
        Ok(())
    }

    /// Total Non-TANF Amount as a number; none where it isn't 11 digits.
    pub fn non_tanf_amount_number(&self) -> Option<u64> {
        fields::number(&self.non_tanf_amount, 11)
    }

    /// Sets Total Non-TANF Amount, 11 digits.
    ///
    /// # Errors
    ///
    /// A number of more digits; the record is then as before.
    pub fn set_non_tanf_amount_number(&mut self, number: u64) -> Result<(), Unfit> {
        self.non_tanf_amount = fields::digits("non_tanf_amount", 11, number)?;
        Ok(())
    }
}

impl fmt::Debug for Control {
    fn fmt(&self, f: &mut fmt::Formatter<'_>) -> fmt::Result {
        fields::debug(self, "Control", f)
    }
}

/// A reject record (Chart 0-1, 245 bytes).
#[derive(Clone, Default, PartialEq, Eq, Hash)]
pub struct Reject {
    /// Submitting State Code, columns 1–2: as sent.
    pub state: String,
    /// Local Code, columns 3–5: as sent.
    pub local_code: String,
    /// SSN, columns 6–14: as sent.
    pub ssn: String,
    /// Case ID, columns 15–29: as sent.
    pub case_id: String,
    /// Obligor Last Name, columns 30–49: as sent.
    pub last_name: String,
    /// Obligor First Name, columns 50–64: as sent.
    pub first_name: String,
    /// Arrearage Amount, columns 65–72: as sent.
    pub arrearage: String,
    /// Transaction Type, column 73: as sent.
    pub transaction_type: String,
    /// Case Type Indicator, column 74: as sent.
    pub case_type: String,
    /// Transfer State Code, columns 75–76: as sent.
    pub transfer_state: String,
    /// Transfer Local Code, columns 77–79: as sent.
    pub transfer_local_code: String,
    /// Process Year, columns 80–83: as sent.
    pub process_year: String,
    /// Obligor Address Line 1, columns 84–113: as sent.
    pub address_line_1: String,
    /// Obligor Address Line 2, columns 114–143: as sent.
    pub address_line_2: String,
    /// Obligor City, columns 144–168: as sent.
    pub city: String,
    /// Obligor State, columns 169–170: as sent.
    pub address_state: String,
    /// Obligor Zip Code, columns 171–179: as sent.
    pub zip: String,
    /// Date Issued, columns 180–187: as sent.
    pub date_issued: String,
    /// Exclusion Indicator(s), columns 188–227: as sent.
    pub exclusions: String,
    /// Rejected Error Codes, columns 228–239: the six lowest, rising, two digits each; spaces behind them.
    pub error_codes: String,
    /// OCSE Last Name, columns 240–243: with 17 the first four characters of the row's last name, else spaces.
    pub stored_name: String,
    /// Filler, column 244: a space.
    pub filler: String,
    /// Request Code, column 245: as sent.
    pub request_code: String,
}

impl Record for Reject {
    const NAME: &'static str = "reject";
    const WIDTH: usize = 245;
    const FIELDS: &'static [Field] = &[
        Field { name: "state", title: "Submitting State Code", first: 1, last: 2, kind: Kind::Text },
        Field { name: "local_code", title: "Local Code", first: 3, last: 5, kind: Kind::Text },
        Field { name: "ssn", title: "SSN", first: 6, last: 14, kind: Kind::Ssn },
        Field { name: "case_id", title: "Case ID", first: 15, last: 29, kind: Kind::Text },
        Field { name: "last_name", title: "Obligor Last Name", first: 30, last: 49, kind: Kind::Text },
        Field { name: "first_name", title: "Obligor First Name", first: 50, last: 64, kind: Kind::Text },
        Field { name: "arrearage", title: "Arrearage Amount", first: 65, last: 72, kind: Kind::Number },
        Field { name: "transaction_type", title: "Transaction Type", first: 73, last: 73, kind: Kind::Text },
        Field { name: "case_type", title: "Case Type Indicator", first: 74, last: 74, kind: Kind::Text },
        Field { name: "transfer_state", title: "Transfer State Code", first: 75, last: 76, kind: Kind::Text },
        Field { name: "transfer_local_code", title: "Transfer Local Code", first: 77, last: 79, kind: Kind::Text },
        Field { name: "process_year", title: "Process Year", first: 80, last: 83, kind: Kind::Number },
        Field { name: "address_line_1", title: "Obligor Address Line 1", first: 84, last: 113, kind: Kind::Text },
        Field { name: "address_line_2", title: "Obligor Address Line 2", first: 114, last: 143, kind: Kind::Text },
        Field { name: "city", title: "Obligor City", first: 144, last: 168, kind: Kind::Text },
        Field { name: "address_state", title: "Obligor State", first: 169, last: 170, kind: Kind::Text },
        Field { name: "zip", title: "Obligor Zip Code", first: 171, last: 179, kind: Kind::Text },
        Field { name: "date_issued", title: "Date Issued", first: 180, last: 187, kind: Kind::Date },
        Field { name: "exclusions", title: "Exclusion Indicator(s)", first: 188, last: 227, kind: Kind::Text },
        Field { name: "error_codes", title: "Rejected Error Codes", first: 228, last: 239, kind: Kind::Text },
        Field { name: "stored_name", title: "OCSE Last Name", first: 240, last: 243, kind: Kind::Text },
        Field { name: "filler", title: "Filler", first: 244, last: 244, kind: Kind::Filler },
        Field { name: "request_code", title: "Request Code", first: 245, last: 245, kind: Kind::Text },
    ];

    fn read(record: &[u8]) -> Option<Self> {
        (record.len() == Self::WIDTH).then_some(())?;
        Some(Reject {
            state: fields::text(record, 1, 2),
            local_code: fields::text(record, 3, 5),
            ssn: fields::text(record, 6, 14),
            case_id: fields::text(record, 15, 29),
            last_name: fields::text(record, 30, 49),
            first_name: fields::text(record, 50, 64),
            arrearage: fields::text(record, 65, 72),
            transaction_type: fields::text(record, 73, 73),
            case_type: fields::text(record, 74, 74),
            transfer_state: fields::text(record, 75, 76),
            transfer_local_code: fields::text(record, 77, 79),
            process_year: fields::text(record, 80, 83),
            address_line_1: fields::text(record, 84, 113),
            address_line_2: fields::text(record, 114, 143),
            city: fields::text(record, 144, 168),
            address_state: fields::text(record, 169, 170),
            zip: fields::text(record, 171, 179),
            date_issued: fields::text(record, 180, 187),
            exclusions: fields::text(record, 188, 227),
            error_codes: fields::text(record, 228, 239),
            stored_name: fields::text(record, 240, 243),
            filler: fields::text(record, 244, 244),
            request_code: fields::text(record, 245, 245),
        })
    }

    fn write(&self) -> Result<Vec<u8>, Unfit> {
        let mut record = vec![0x40; Self::WIDTH];
        fields::put(&mut record, &Self::FIELDS[0], &self.state)?;
        fields::put(&mut record, &Self::FIELDS[1], &self.local_code)?;
        fields::put(&mut record, &Self::FIELDS[2], &self.ssn)?;
        fields::put(&mut record, &Self::FIELDS[3], &self.case_id)?;
        fields::put(&mut record, &Self::FIELDS[4], &self.last_name)?;
        fields::put(&mut record, &Self::FIELDS[5], &self.first_name)?;
        fields::put(&mut record, &Self::FIELDS[6], &self.arrearage)?;
        fields::put(&mut record, &Self::FIELDS[7], &self.transaction_type)?;
        fields::put(&mut record, &Self::FIELDS[8], &self.case_type)?;
        fields::put(&mut record, &Self::FIELDS[9], &self.transfer_state)?;
        fields::put(&mut record, &Self::FIELDS[10], &self.transfer_local_code)?;
        fields::put(&mut record, &Self::FIELDS[11], &self.process_year)?;
        fields::put(&mut record, &Self::FIELDS[12], &self.address_line_1)?;
        fields::put(&mut record, &Self::FIELDS[13], &self.address_line_2)?;
        fields::put(&mut record, &Self::FIELDS[14], &self.city)?;
        fields::put(&mut record, &Self::FIELDS[15], &self.address_state)?;
        fields::put(&mut record, &Self::FIELDS[16], &self.zip)?;
        fields::put(&mut record, &Self::FIELDS[17], &self.date_issued)?;
        fields::put(&mut record, &Self::FIELDS[18], &self.exclusions)?;
        fields::put(&mut record, &Self::FIELDS[19], &self.error_codes)?;
        fields::put(&mut record, &Self::FIELDS[20], &self.stored_name)?;
        fields::put(&mut record, &Self::FIELDS[21], &self.filler)?;
        fields::put(&mut record, &Self::FIELDS[22], &self.request_code)?;
        Ok(record)
    }

    fn texts(&self) -> Vec<String> {
        vec![
            self.state.clone(),
            self.local_code.clone(),
            self.ssn.clone(),
            self.case_id.clone(),
            self.last_name.clone(),
            self.first_name.clone(),
            self.arrearage.clone(),
            self.transaction_type.clone(),
            self.case_type.clone(),
            self.transfer_state.clone(),
            self.transfer_local_code.clone(),
            self.process_year.clone(),
            self.address_line_1.clone(),
            self.address_line_2.clone(),
            self.city.clone(),
            self.address_state.clone(),
            self.zip.clone(),
            self.date_issued.clone(),
            self.exclusions.clone(),
            self.error_codes.clone(),
            self.stored_name.clone(),
            self.filler.clone(),
            self.request_code.clone(),
        ]
    }

    fn numbers(&self) -> Vec<Option<u64>> {
        vec![
            None,
            None,
            None,
            None,
            None,
            None,
            self.arrearage_number(),
            None,
            None,
            None,
            None,
            self.process_year_number(),
            None,
            None,
            None,
            None,
            None,
            None,
            None,
            None,
            None,
            None,
            None,
        ]
    }
}

impl Reject {
    /// Arrearage Amount as a number; none where it isn't 8 digits.
    pub fn arrearage_number(&self) -> Option<u64> {
        fields::number(&self.arrearage, 8)
    }

    /// Sets Arrearage Amount, 8 digits.
    ///
    /// # Errors
    ///
    /// A number of more digits; the record is then as before.
    pub fn set_arrearage_number(&mut self, number: u64) -> Result<(), Unfit> {
        self.arrearage = fields::digits("arrearage", 8, number)?;
        Ok(())
    }

    /// Process Year as a number; none where it isn't 4 digits.
    pub fn process_year_number(&self) -> Option<u64> {
        fields::number(&self.process_year, 4)
    }

    /// Sets Process Year, 4 digits.
    ///
    /// # Errors
    ///
    /// A number of more digits; the record is then as before.
    pub fn set_process_year_number(&mut self, number: u64) -> Result<(), Unfit> {
        self.process_year = fields::digits("process_year", 4, number)?;
        Ok(())
    }
}

impl fmt::Debug for Reject {
    fn fmt(&self, f: &mut fmt::Formatter<'_>) -> fmt::Result {
        fields::debug(self, "Reject", f)
    }
}

/// The control record of a reject file (Chart 0-2, 245 bytes).
#[derive(Clone, Default, PartialEq, Eq, Hash)]
pub struct RejectControl {
    /// Submitting State Code, columns 1–2: that of the batch's control record.
    pub state: String,
    /// Reject Control, columns 3–5: CTL.
    pub mark: String,
    /// TANF Accepted, columns 6–14: nine digits each; accepted includes warned.
    pub tanf_accepted: String,
    /// TANF Rejected, columns 15–23.
    pub tanf_rejected: String,
    /// Non-TANF Accepted, columns 24–32.
    pub non_tanf_accepted: String,
    /// Non-TANF Rejected, columns 33–41.
    pub non_tanf_rejected: String,
    /// TANF Warning, columns 42–50.
    pub tanf_warned: String,
    /// Non-TANF Warning, columns 51–59.
    pub non_tanf_warned: String,
    /// Filler, columns 60–245: spaces.
    pub filler: String,
}

impl Record for RejectControl {
    const NAME: &'static str = "reject_control";
    const WIDTH: usize = 245;
    const FIELDS: &'static [Field] = &[
        Field { name: "state", title: "Submitting State Code", first: 1, last: 2, kind: Kind::Text },
        Field { name: "mark", title: "Reject Control", first: 3, last: 5, kind: Kind::Text },
        Field { name: "tanf_accepted", title: "TANF Accepted", first: 6, last: 14, kind: Kind::Number },
        Field { name: "tanf_rejected", title: "TANF Rejected", first: 15, last: 23, kind: Kind::Number },
        Field { name: "non_tanf_accepted", title: "Non-TANF Accepted", first: 24, last: 32, kind: Kind::Number },
        Field { name: "non_tanf_rejected", title: "Non-TANF Rejected", first: 33, last: 41, kind: Kind::Number },
        Field { name: "tanf_warned", title: "TANF Warning", first: 42, last: 50, kind: Kind::Number },
        Field { name: "non_tanf_warned", title: "Non-TANF Warning", first: 51, last: 59, kind: Kind::Number },
        Field { name: "filler", title: "Filler", first: 60, last: 245, kind: Kind::Filler },
    ];

    fn read(record: &[u8]) -> Option<Self> {
        (record.len() == Self::WIDTH).then_some(())?;
        Some(RejectControl {
            state: fields::text(record, 1, 2),
            mark: fields::text(record, 3, 5),
            tanf_accepted: fields::text(record, 6, 14),
            tanf_rejected: fields::text(record, 15, 23),
            non_tanf_accepted: fields::text(record, 24, 32),
            non_tanf_rejected: fields::text(record, 33, 41),
            tanf_warned: fields::text(record, 42, 50),
            non_tanf_warned: fields::text(record, 51, 59),
            filler: fields::text(record, 60, 245),
        })
    }

    fn write(&self) -> Result<Vec<u8>, Unfit> {
        let mut record = vec![0x40; Self::WIDTH];
        fields::put(&mut record, &Self::FIELDS[0], &self.state)?;
        fields::put(&mut record, &Self::FIELDS[1], &self.mark)?;
        fields::put(&mut record, &Self::FIELDS[2], &self.tanf_accepted)?;
        fields::put(&mut record, &Self::FIELDS[3], &self.tanf_rejected)?;
        fields::put(&mut record, &Self::FIELDS[4], &self.non_tanf_accepted)?;
        fields::put(&mut record, &Self::FIELDS[5], &self.non_tanf_rejected)?;
        fields::put(&mut record, &Self::FIELDS[6], &self.tanf_warned)?;
        fields::put(&mut record, &Self::FIELDS[7], &self.non_tanf_warned)?;
        fields::put(&mut record, &Self::FIELDS[8], &self.filler)?;
        Ok(record)
    }

    fn texts(&self) -> Vec<String> {
        vec![
            self.state.clone(),
            self.mark.clone(),
            self.tanf_accepted.clone(),
            self.tanf_rejected.clone(),
            self.non_tanf_accepted.clone(),
            self.non_tanf_rejected.clone(),
            self.tanf_warned.clone(),
            self.non_tanf_warned.clone(),
            self.filler.clone(),
        ]
    }

    fn numbers(&self) -> Vec<Option<u64>> {
        vec![
            None,
            None,
            self.tanf_accepted_number(),
            self.tanf_rejected_number(),
            self.non_tanf_accepted_number(),
            self.non_tanf_rejected_number(),
            self.tanf_warned_number(),
            self.non_tanf_warned_number(),
            None,
        ]
    }
}

impl RejectControl {
    /// TANF Accepted as a number; none where it isn't 9 digits.
    pub fn tanf_accepted_number(&self) -> Option<u64> {
        fields::number(&self.tanf_accepted, 9)
    }

    /// Sets TANF Accepted, 9 digits.
    ///
    /// # Errors
    ///
    /// A number of more digits; the record is then as before.
    pub fn set_tanf_accepted_number(&mut self, number: u64) -> Result<(), Unfit> {
        self.tanf_accepted = fields::digits("tanf_accepted", 9, number)?;
        Ok(())
    }

    /// TANF Rejected as a number; none where it isn't 9 digits.
    pub fn tanf_rejected_number(&self) -> Option<u64> {
        fields::number(&self.tanf_rejected, 9)
    }

    /// Sets TANF Rejected, 9 digits.
    ///
    /// # Errors
    ///
    /// A number of more digits; the record is then as before.
    pub fn set_tanf_rejected_number(&mut self, number: u64) -> Result<(), Unfit> {
        self.tanf_rejected = fields::digits("tanf_rejected", 9, number)?;
        Ok(())
    }

    /// Non-TANF Accepted as a number; none where it isn't 9 digits.
    pub fn non_tanf_accepted_number(&self) -> Option<u64> {
        fields::number(&self.non_tanf_accepted, 9)
    }

    /// Sets Non-TANF Accepted, 9 digits.
    ///
    /// # Errors
    ///
    /// A number of more digits; the record is then as before.
    pub fn set_non_tanf_accepted_number(&mut self, number: u64) -> Result<(), Unfit> {
        self.non_tanf_accepted = fields::digits("non_tanf_accepted", 9, number)?;
        Ok(())
    }

    /// Non-TANF Rejected as a number; none where it isn't 9 digits.
    pub fn non_tanf_rejected_number(&self) -> Option<u64> {
        fields::number(&self.non_tanf_rejected, 9)
    }

    /// Sets Non-TANF Rejected, 9 digits.
    ///
    /// # Errors
    ///
    /// A number of more digits; the record is then as before.
    pub fn set_non_tanf_rejected_number(&mut self, number: u64) -> Result<(), Unfit> {
        self.non_tanf_rejected = fields::digits("non_tanf_rejected", 9, number)?;
        Ok(())
    }

    /// TANF Warning as a number; none where it isn't 9 digits.
    pub fn tanf_warned_number(&self) -> Option<u64> {
        fields::number(&self.tanf_warned, 9)
    }

    /// Sets TANF Warning, 9 digits.
    ///
    /// # Errors
    ///
    /// A number of more digits; the record is then as before.
    pub fn set_tanf_warned_number(&mut self, number: u64) -> Result<(), Unfit> {
        self.tanf_warned = fields::digits("tanf_warned", 9, number)?;
        Ok(())
    }

    /// Non-TANF Warning as a number; none where it isn't 9 digits.
    pub fn non_tanf_warned_number(&self) -> Option<u64> {
        fields::number(&self.non_tanf_warned, 9)
    }

    /// Sets Non-TANF Warning, 9 digits.
    ///
    /// # Errors
    ///
    /// A number of more digits; the record is then as before.
    pub fn set_non_tanf_warned_number(&mut self, number: u64) -> Result<(), Unfit> {
        self.non_tanf_warned = fields::digits("non_tanf_warned", 9, number)?;
        Ok(())
    }
}

impl fmt::Debug for RejectControl {
    fn fmt(&self, f: &mut fmt::Formatter<'_>) -> fmt::Result {
        fields::debug(self, "RejectControl", f)
    }
}

/// A REC record of a reconciliation file (Chart 0-6, 245 bytes).
#[derive(Clone, Default, PartialEq, Eq, Hash)]
pub struct Rec {
    /// Record Identifier, columns 1–3: REC.
    pub mark: String,
    /// Submitting State Code, columns 4–5: as in the row, like the fields below.
    pub state: String,
    /// Local Code, columns 6–8.
    pub local_code: String,
    /// SSN, columns 9–17.
    pub ssn: String,
    /// Case ID, columns 18–32.
    pub case_id: String,
    /// Obligor Last Name, columns 33–52.
    pub last_name: String,
    /// Obligor First Name, columns 53–62: its first ten characters.
    pub first_name: String,
    /// Current Arrearage Amount, columns 63–70: the dollars; the cents are not shown.
    pub arrearage: String,
    /// Case Type Indicator, column 71.
    pub case_type: String,
    /// Last Pre-Offset Notice Date, columns 72–79: the row's date issued.
    pub notice_date: String,
    /// Pre-Offset Notice Hold Indicator, column 80: a space.
    pub notice_hold: String,
    /// Department of State Action Indicator, column 81: a space.
    pub passport_action: String,
    /// Administrative Offset Exclusion Indicator, columns 82–84: ADM where it is in the set, else spaces; so the seven below.
    pub exclusion_adm: String,
    /// Federal Retirement Offset Exclusion Indicator, columns 85–87: RET.
    pub exclusion_ret: String,
    /// Vendor Payments Exclusion Indicator, columns 88–90: VEN.
    pub exclusion_ven: String,
    /// Federal Salary Exclusion Indicator, columns 91–93: SAL.
    pub exclusion_sal: String,
    /// Tax Refund Offset Exclusion Indicator, columns 94–96: TAX.
    pub exclusion_tax: String,
    /// Passport Denial Exclusion Indicator, columns 97–99: PAS.
    pub exclusion_pas: String,
    /// Multi-State Financial Institution Data Match Exclusion Indicator, columns 100–102: FIN.
    pub exclusion_fin: String,
    /// Debt Check Exclusion Indicator, columns 103–105: DCK.
    pub exclusion_dck: String,
    /// Filler, columns 106–245: spaces.
    pub filler: String,
}

impl Record for Rec {
    const NAME: &'static str = "rec";
    const WIDTH: usize = 245;
    const FIELDS: &'static [Field] = &[
        Field { name: "mark", title: "Record Identifier", first: 1, last: 3, kind: Kind::Text },
        Field { name: "state", title: "Submitting State Code", first: 4, last: 5, kind: Kind::Text },
        Field { name: "local_code", title: "Local Code", first: 6, last: 8, kind: Kind::Text },
        Field { name: "ssn", title: "SSN", first: 9, last: 17, kind: Kind::Ssn },
        Field { name: "case_id", title: "Case ID", first: 18, last: 32, kind: Kind::Text },
        Field { name: "last_name", title: "Obligor Last Name", first: 33, last: 52, kind: Kind::Text },
        Field { name: "first_name", title: "Obligor First Name", first: 53, last: 62, kind: Kind::Text },
        Field { name: "arrearage", title: "Current Arrearage Amount", first: 63, last: 70, kind: Kind::Number },
        Field { name: "case_type", title: "Case Type Indicator", first: 71, last: 71, kind: Kind::Text },
        Field { name: "notice_date", title: "Last Pre-Offset Notice Date", first: 72, last: 79, kind: Kind::Date },
        Field { name: "notice_hold", title: "Pre-Offset Notice Hold Indicator", first: 80, last: 80, kind: Kind::Text },
        Field { name: "passport_action", title: "Department of State Action Indicator", first: 81, last: 81, kind: Kind::Text },
        Field { name: "exclusion_adm", title: "Administrative Offset Exclusion Indicator", first: 82, last: 84, kind: Kind::Text },
        Field { name: "exclusion_ret", title: "Federal Retirement Offset Exclusion Indicator", first: 85, last: 87, kind: Kind::Text },
        Field { name: "exclusion_ven", title: "Vendor Payments Exclusion Indicator", first: 88, last: 90, kind: Kind::Text },
        Field { name: "exclusion_sal", title: "Federal Salary Exclusion Indicator", first: 91, last: 93, kind: Kind::Text },
        Field { name: "exclusion_tax", title: "Tax Refund Offset Exclusion Indicator", first: 94, last: 96, kind: Kind::Text },
        Field { name: "exclusion_pas", title: "Passport Denial Exclusion Indicator", first: 97, last: 99, kind: Kind::Text },
        Field { name: "exclusion_fin", title: "Multi-State Financial Institution Data Match Exclusion Indicator", first: 100, last: 102, kind: Kind::Text },
        Field { name: "exclusion_dck", title: "Debt Check Exclusion Indicator", first: 103, last: 105, kind: Kind::Text },
        Field { name: "filler", title: "Filler", first: 106, last: 245, kind: Kind::Filler },
    ];

    fn read(record: &[u8]) -> Option<Self> {
        (record.len() == Self::WIDTH).then_some(())?;
        Some(Rec {
            mark: fields::text(record, 1, 3),
            state: fields::text(record, 4, 5),
            local_code: fields::text(record, 6, 8),
            ssn: fields::text(record, 9, 17),
            case_id: fields::text(record, 18, 32),
            last_name: fields::text(record, 33, 52),
            first_name: fields::text(record, 53, 62),
            arrearage: fields::text(record, 63, 70),
            case_type: fields::text(record, 71, 71),
            notice_date: fields::text(record, 72, 79),
            notice_hold: fields::text(record, 80, 80),
            passport_action: fields::text(record, 81, 81),
            exclusion_adm: fields::text(record, 82, 84),
            exclusion_ret: fields::text(record, 85, 87),
            exclusion_ven: fields::text(record, 88, 90),
            exclusion_sal: fields::text(record, 91, 93),
            exclusion_tax: fields::text(record, 94, 96),
            exclusion_pas: fields::text(record, 97, 99),
            exclusion_fin: fields::text(record, 100, 102),
            exclusion_dck: fields::text(record, 103, 105),
            filler: fields::text(record, 106, 245),
        })
    }

    fn write(&self) -> Result<Vec<u8>, Unfit> {
        let mut record = vec![0x40; Self::WIDTH];
        fields::put(&mut record, &Self::FIELDS[0], &self.mark)?;
        fields::put(&mut record, &Self::FIELDS[1], &self.state)?;
        fields::put(&mut record, &Self::FIELDS[2], &self.local_code)?;
        fields::put(&mut record, &Self::FIELDS[3], &self.ssn)?;
        fields::put(&mut record, &Self::FIELDS[4], &self.case_id)?;
        fields::put(&mut record, &Self::FIELDS[5], &self.last_name)?;
        fields::put(&mut record, &Self::FIELDS[6], &self.first_name)?;
        fields::put(&mut record, &Self::FIELDS[7], &self.arrearage)?;
        fields::put(&mut record, &Self::FIELDS[8], &self.case_type)?;
        fields::put(&mut record, &Self::FIELDS[9], &self.notice_date)?;
        fields::put(&mut record, &Self::FIELDS[10], &self.notice_hold)?;
        fields::put(&mut record, &Self::FIELDS[11], &self.passport_action)?;
        fields::put(&mut record, &Self::FIELDS[12], &self.exclusion_adm)?;
        fields::put(&mut record, &Self::FIELDS[13], &self.exclusion_ret)?;
        fields::put(&mut record, &Self::FIELDS[14], &self.exclusion_ven)?;
        fields::put(&mut record, &Self::FIELDS[15], &self.exclusion_sal)?;
        fields::put(&mut record, &Self::FIELDS[16], &self.exclusion_tax)?;
        fields::put(&mut record, &Self::FIELDS[17], &self.exclusion_pas)?;
        fields::put(&mut record, &Self::FIELDS[18], &self.exclusion_fin)?;
        fields::put(&mut record, &Self::FIELDS[19], &self.exclusion_dck)?;
        fields::put(&mut record, &Self::FIELDS[20], &self.filler)?;
        Ok(record)
    }

    fn texts(&self) -> Vec<String> {
        vec![
            self.mark.clone(),
            self.state.clone(),
            self.local_code.clone(),
            self.ssn.clone(),
            self.case_id.clone(),
            self.last_name.clone(),
            self.first_name.clone(),
            self.arrearage.clone(),
            self.case_type.clone(),
            self.notice_date.clone(),
            self.notice_hold.clone(),
            self.passport_action.clone(),
            self.exclusion_adm.clone(),
            self.exclusion_ret.clone(),
            self.exclusion_ven.clone(),
            self.exclusion_sal.clone(),
            self.exclusion_tax.clone(),
            self.exclusion_pas.clone(),
            self.exclusion_fin.clone(),
            self.exclusion_dck.clone(),
            self.filler.clone(),
        ]
    }

    fn numbers(&self) -> Vec<Option<u64>> {
        vec![
            None,
            None,
            None,
            None,
            None,
            None,
            None,
            self.arrearage_number(),
            None,
            None,
            None,
            None,
            None,
            None,
            None,
            None,
            None,
            None,
            None,
            None,
            None,
        ]
    }
}

impl Rec {
    /// Current Arrearage Amount as a number; none where it isn't 8 digits.
    pub fn arrearage_number(&self) -> Option<u64> {
        fields::number(&self.arrearage, 8)
    }

    /// Sets Current Arrearage Amount, 8 digits.
    ///
    /// # Errors
    ///
    /// A number of more digits; the record is then as before.
    pub fn set_arrearage_number(&mut self, number: u64) -> Result<(), Unfit> {
        self.arrearage = fields::digits("arrearage", 8, number)?;
        Ok(())
    }
}

impl fmt::Debug for Rec {
    fn fmt(&self, f: &mut fmt::Formatter<'_>) -> fmt::Result {
        fields::debug(self, "Rec", f)
    }
}

/// The RCT record of a reconciliation file (Chart 0-7, 245 bytes).
#[derive(Clone, Default, PartialEq, Eq, Hash)]
pub struct Rct {
    /// Record Identifier, columns 1–3: RCT.
    pub mark: String,
    /// Submitting State Code, columns 4–5.
    pub state: String,
    /// TANF Cases Returned, columns 6–14: REC records with case type A, nine digits.
    pub tanf: String,
    /// Non-TANF Cases Returned, columns 15–23: REC records with case type N.
    pub non_tanf: String,
    /// Total Cases Returned, columns 24–32.
    pub total: String,
    /// Extract Date, columns 33–40: the date asked for, CCYYMMDD.
    pub date: String,
    /// Filler, columns 41–245: spaces.
    pub filler: String,
}

impl Record for Rct {
    const NAME: &'static str = "rct";
    const WIDTH: usize = 245;
    const FIELDS: &'static [Field] = &[
        Field { name: "mark", title: "Record Identifier", first: 1, last: 3, kind: Kind::Text },
        Field { name: "state", title: "Submitting State Code", first: 4, last: 5, kind: Kind::Text },
        Field { name: "tanf", title: "TANF Cases Returned", first: 6, last: 14, kind: Kind::Number },
        Field { name: "non_tanf", title: "Non-TANF Cases Returned", first: 15, last: 23, kind: Kind::Number },
        Field { name: "total", title: "Total Cases Returned", first: 24, last: 32, kind: Kind::Number },
        Field { name: "date", title: "Extract Date", first: 33, last: 40, kind: Kind::Date },
        Field { name: "filler", title: "Filler", first: 41, last: 245, kind: Kind::Filler },
    ];

    fn read(record: &[u8]) -> Option<Self> {
        (record.len() == Self::WIDTH).then_some(())?;
        Some(Rct {
            mark: fields::text(record, 1, 3),
            state: fields::text(record, 4, 5),
            tanf: fields::text(record, 6, 14),
            non_tanf: fields::text(record, 15, 23),
            total: fields::text(record, 24, 32),
            date: fields::text(record, 33, 40),
            filler: fields::text(record, 41, 245),
        })
    }

    fn write(&self) -> Result<Vec<u8>, Unfit> {
        let mut record = vec![0x40; Self::WIDTH];
        fields::put(&mut record, &Self::FIELDS[0], &self.mark)?;
        fields::put(&mut record, &Self::FIELDS[1], &self.state)?;
        fields::put(&mut record, &Self::FIELDS[2], &self.tanf)?;
        fields::put(&mut record, &Self::FIELDS[3], &self.non_tanf)?;
        fields::put(&mut record, &Self::FIELDS[4], &self.total)?;
        fields::put(&mut record, &Self::FIELDS[5], &self.date)?;
        fields::put(&mut record, &Self::FIELDS[6], &self.filler)?;
        Ok(record)
    }

    fn texts(&self) -> Vec<String> {
        vec![
            self.mark.clone(),
            self.state.clone(),
            self.tanf.clone(),
            self.non_tanf.clone(),
            self.total.clone(),
            self.date.clone(),
            self.filler.clone(),
        ]
    }

    fn numbers(&self) -> Vec<Option<u64>> {
        vec![
            None,
            None,
            self.tanf_number(),
            self.non_tanf_number(),
            self.total_number(),
            None,
            None,
        ]
    }
}

impl Rct {
    /// TANF Cases Returned as a number; none where it isn't 9 digits.
    pub fn tanf_number(&self) -> Option<u64> {
        fields::number(&self.tanf, 9)
    }

    /// Sets TANF Cases Returned, 9 digits.
    ///
    /// # Errors
    ///
    /// A number of more digits; the record is then as before.
    pub fn set_tanf_number(&mut self, number: u64) -> Result<(), Unfit> {
        self.tanf = fields::digits("tanf", 9, number)?;
        Ok(())
    }

    /// Non-TANF Cases Returned as a number; none where it isn't 9 digits.
    pub fn non_tanf_number(&self) -> Option<u64> {
        fields::number(&self.non_tanf, 9)
    }

    /// Sets Non-TANF Cases Returned, 9 digits.
    ///
    /// # Errors
    ///
    /// A number of more digits; the record is then as before.
    pub fn set_non_tanf_number(&mut self, number: u64) -> Result<(), Unfit> {
        self.non_tanf = fields::digits("non_tanf", 9, number)?;
        Ok(())
    }

    /// Total Cases Returned as a number; none where it isn't 9 digits.
    pub fn total_number(&self) -> Option<u64> {
        fields::number(&self.total, 9)
    }

    /// Sets Total Cases Returned, 9 digits.
    ///
    /// # Errors
    ///
    /// A number of more digits; the record is then as before.
    pub fn set_total_number(&mut self, number: u64) -> Result<(), Unfit> {
        self.total = fields::digits("total", 9, number)?;
        Ok(())
    }
}

impl fmt::Debug for Rct {
    fn fmt(&self, f: &mut fmt::Formatter<'_>) -> fmt::Result {
        fields::debug(self, "Rct", f)
    }
}

/// A contact record (Chart A-3, 220 bytes).
#[derive(Clone, Default, PartialEq, Eq, Hash)]
pub struct Contact {
    /// Submitting State Code, columns 1–2: of the table; key.
    pub state: String,
    /// Local Code, columns 3–5: three digits, 000 for the state itself; key.
    pub local_code: String,
    /// Telephone Number 1, columns 6–19: of the form `(301) 555-1212`.
    pub telephone_1: String,
    /// Extension 1, columns 20–23: up to four digits with only spaces behind, or blank.
    pub extension_1: String,
    /// Telephone Number 2, columns 24–37: of the same form, or blank.
    pub telephone_2: String,
    /// Extension 2, columns 38–41: as extension 1.
    pub extension_2: String,
    /// State Agency Name, columns 42–76: contains CHILD SUPPORT or FAMILY SUPPORT.
    pub agency_name: String,
    /// State Agency Address Line 1, columns 77–111: one of lines 1 to 3 is not blank.
    pub address_line_1: String,
    /// State Agency Address Line 2, columns 112–146.
    pub address_line_2: String,
    /// State Agency Address Line 3, columns 147–181.
    pub address_line_3: String,
    /// State Agency Address Line 4, columns 182–216: not blank.
    pub address_line_4: String,
    /// Filler, columns 217–220: spaces.
    pub filler: String,
}

impl Record for Contact {
    const NAME: &'static str = "contact";
    const WIDTH: usize = 220;
    const FIELDS: &'static [Field] = &[
        Field { name: "state", title: "Submitting State Code", first: 1, last: 2, kind: Kind::Text },
        Field { name: "local_code", title: "Local Code", first: 3, last: 5, kind: Kind::Text },
        Field { name: "telephone_1", title: "Telephone Number 1", first: 6, last: 19, kind: Kind::Text },
        Field { name: "extension_1", title: "Extension 1", first: 20, last: 23, kind: Kind::Text },
        Field { name: "telephone_2", title: "Telephone Number 2", first: 24, last: 37, kind: Kind::Text },
        Field { name: "extension_2", title: "Extension 2", first: 38, last: 41, kind: Kind::Text },
        Field { name: "agency_name", title: "State Agency Name", first: 42, last: 76, kind: Kind::Text },
        Field { name: "address_line_1", title: "State Agency Address Line 1", first: 77, last: 111, kind: Kind::Text },
        Field { name: "address_line_2", title: "State Agency Address Line 2", first: 112, last: 146, kind: Kind::Text },
        Field { name: "address_line_3", title: "State Agency Address Line 3", first: 147, last: 181, kind: Kind::Text },
        Field { name: "address_line_4", title: "State Agency Address Line 4", first: 182, last: 216, kind: Kind::Text },
        Field { name: "filler", title: "Filler", first: 217, last: 220, kind: Kind::Filler },
    ];

    fn read(record: &[u8]) -> Option<Self> {
        (record.len() == Self::WIDTH).then_some(())?;
        Some(Contact {
            state: fields::text(record, 1, 2),
            local_code: fields::text(record, 3, 5),
            telephone_1: fields::text(record, 6, 19),
            extension_1: fields::text(record, 20, 23),
            telephone_2: fields::text(record, 24, 37),
            extension_2: fields::text(record, 38, 41),
            agency_name: fields::text(record, 42, 76),
            address_line_1: fields::text(record, 77, 111),
            address_line_2: fields::text(record, 112, 146),
            address_line_3: fields::text(record, 147, 181),
            address_line_4: fields::text(record, 182, 216),
            filler: fields::text(record, 217, 220),
        })
    }

    fn write(&self) -> Result<Vec<u8>, Unfit> {
        let mut record = vec![0x40; Self::WIDTH];
        fields::put(&mut record, &Self::FIELDS[0], &self.state)?;
        fields::put(&mut record, &Self::FIELDS[1], &self.local_code)?;
        fields::put(&mut record, &Self::FIELDS[2], &self.telephone_1)?;
        fields::put(&mut record, &Self::FIELDS[3], &self.extension_1)?;
        fields::put(&mut record, &Self::FIELDS[4], &self.telephone_2)?;
        fields::put(&mut record, &Self::FIELDS[5], &self.extension_2)?;
        fields::put(&mut record, &Self::FIELDS[6], &self.agency_name)?;
        fields::put(&mut record, &Self::FIELDS[7], &self.address_line_1)?;
        fields::put(&mut record, &Self::FIELDS[8], &self.address_line_2)?;
        fields::put(&mut record, &Self::FIELDS[9], &self.address_line_3)?;
        fields::put(&mut record, &Self::FIELDS[10], &self.address_line_4)?;
        fields::put(&mut record, &Self::FIELDS[11], &self.filler)?;
        Ok(record)
    }

    fn texts(&self) -> Vec<String> {
        vec![
            self.state.clone(),
            self.local_code.clone(),
            self.telephone_1.clone(),
            self.extension_1.clone(),
            self.telephone_2.clone(),
            self.extension_2.clone(),
            self.agency_name.clone(),
            self.address_line_1.clone(),
            self.address_line_2.clone(),
            self.address_line_3.clone(),
            self.address_line_4.clone(),
            self.filler.clone(),
        ]
    }

    fn numbers(&self) -> Vec<Option<u64>> {
        vec![
            None,
            None,
            None,
            None,
            None,
            None,
            None,
            None,
            None,
            None,
            None,
            None,
        ]
    }
}

impl fmt::Debug for Contact {
    fn fmt(&self, f: &mut fmt::Formatter<'_>) -> fmt::Result {
        fields::debug(self, "Contact", f)
    }
}

/// A line of a collection file (Chart 0-4, 240 bytes).
#[derive(Clone, Default, PartialEq, Eq, Hash)]
pub struct Line {
    /// Submitting State Code, columns 1–2: with SSN and case type the key.
    pub state: String,
    /// Local Code, columns 3–5.
    pub local_code: String,
    /// SSN, columns 6–14.
    pub ssn: String,
    /// Case ID, columns 15–29.
    pub case_id: String,
    /// Obligor Last Name, columns 30–49.
    pub last_name: String,
    /// Obligor First Name, columns 50–64.
    pub first_name: String,
    /// Certified Arrearage Amount, columns 65–75: dollars and cents.
    pub certified_arrearage: String,
    /// Collection Amount, columns 76–86: in cents: ten digits and a last digit F0-F9 or C0-C9 (a digit with a plus sign).
    pub collection: String,
    /// Adjustment Amount, columns 87–97: in cents, of the same form.
    pub adjustment: String,
    /// Adjustment Year, columns 98–101.
    pub adjustment_year: String,
    /// Offset Year, columns 102–105.
    pub offset_year: String,
    /// Return Indicator, column 106.
    pub return_indicator: String,
    /// Case Type Indicator, column 107.
    pub case_type: String,
    /// Transfer State Code, columns 108–109.
    pub transfer_state: String,
    /// Transfer Local Code, columns 110–112.
    pub transfer_local_code: String,
    /// Payment Name, columns 113–147.
    pub payment_name: String,
    /// Payment Street Address, columns 148–182.
    pub payment_street: String,
    /// Payment City and State, columns 183–207.
    pub payment_city_and_state: String,
    /// Payment Zip Code, columns 208–216.
    pub payment_zip: String,
    /// Offset Type, columns 217–219.
    pub offset_type: String,
    /// Fee Amount, columns 220–224.
    pub fee: String,
    /// Injured Spouse Indicator, column 225.
    pub injured_spouse: String,
    /// Zero Balance Delete Indicator, column 226.
    pub zero_balance_delete: String,
    /// TOP Trace Number, columns 227–236.
    pub trace_number: String,
    /// Filler, columns 237–240.
    pub filler: String,
}

impl Record for Line {
    const NAME: &'static str = "line";
    const WIDTH: usize = 240;
    const FIELDS: &'static [Field] = &[
        Field { name: "state", title: "Submitting State Code", first: 1, last: 2, kind: Kind::Text },
        Field { name: "local_code", title: "Local Code", first: 3, last: 5, kind: Kind::Text },
        Field { name: "ssn", title: "SSN", first: 6, last: 14, kind: Kind::Ssn },
        Field { name: "case_id", title: "Case ID", first: 15, last: 29, kind: Kind::Text },
        Field { name: "last_name", title: "Obligor Last Name", first: 30, last: 49, kind: Kind::Text },
        Field { name: "first_name", title: "Obligor First Name", first: 50, last: 64, kind: Kind::Text },
        Field { name: "certified_arrearage", title: "Certified Arrearage Amount", first: 65, last: 75, kind: Kind::Amount },
        Field { name: "collection", title: "Collection Amount", first: 76, last: 86, kind: Kind::Amount },
        Field { name: "adjustment", title: "Adjustment Amount", first: 87, last: 97, kind: Kind::Amount },
        Field { name: "adjustment_year", title: "Adjustment Year", first: 98, last: 101, kind: Kind::Number },
        Field { name: "offset_year", title: "Offset Year", first: 102, last: 105, kind: Kind::Number },
        Field { name: "return_indicator", title: "Return Indicator", first: 106, last: 106, kind: Kind::Text },
        Field { name: "case_type", title: "Case Type Indicator", first: 107, last: 107, kind: Kind::Text },
        Field { name: "transfer_state", title: "Transfer State Code", first: 108, last: 109, kind: Kind::Text },
        Field { name: "transfer_local_code", title: "Transfer Local Code", first: 110, last: 112, kind: Kind::Text },
        Field { name: "payment_name", title: "Payment Name", first: 113, last: 147, kind: Kind::Text },
        Field { name: "payment_street", title: "Payment Street Address", first: 148, last: 182, kind: Kind::Text },
        Field { name: "payment_city_and_state", title: "Payment City and State", first: 183, last: 207, kind: Kind::Text },
        Field { name: "payment_zip", title: "Payment Zip Code", first: 208, last: 216, kind: Kind::Text },
        Field { name: "offset_type", title: "Offset Type", first: 217, last: 219, kind: Kind::Text },
        Field { name: "fee", title: "Fee Amount", first: 220, last: 224, kind: Kind::Amount },
        Field { name: "injured_spouse", title: "Injured Spouse Indicator", first: 225, last: 225, kind: Kind::Text },
        Field { name: "zero_balance_delete", title: "Zero Balance Delete Indicator", first: 226, last: 226, kind: Kind::Text },
        Field { name: "trace_number", title: "TOP Trace Number", first: 227, last: 236, kind: Kind::Text },
        Field { name: "filler", title: "Filler", first: 237, last: 240, kind: Kind::Filler },
    ];

    fn read(record: &[u8]) -> Option<Self> {
        (record.len() == Self::WIDTH).then_some(())?;
        Some(Line {
            state: fields::text(record, 1, 2),
            local_code: fields::text(record, 3, 5),
            ssn: fields::text(record, 6, 14),
            case_id: fields::text(record, 15, 29),
            last_name: fields::text(record, 30, 49),
            first_name: fields::text(record, 50, 64),
            certified_arrearage: fields::text(record, 65, 75),
            collection: fields::text(record, 76, 86),
            adjustment: fields::text(record, 87, 97),
            adjustment_year: fields::text(record, 98, 101),
            offset_year: fields::text(record, 102, 105),
            return_indicator: fields::text(record, 106, 106),
            case_type: fields::text(record, 107, 107),
            transfer_state: fields::text(record, 108, 109),
            transfer_local_code: fields::text(record, 110, 112),
            payment_name: fields::text(record, 113, 147),
            payment_street: fields::text(record, 148, 182),
            payment_city_and_state: fields::text(record, 183, 207),
            payment_zip: fields::text(record, 208, 216),
            offset_type: fields::text(record, 217, 219),
            fee: fields::text(record, 220, 224),
            injured_spouse: fields::text(record, 225, 225),
            zero_balance_delete: fields::text(record, 226, 226),
            trace_number: fields::text(record, 227, 236),
            filler: fields::text(record, 237, 240),
        })
    }

    fn write(&self) -> Result<Vec<u8>, Unfit> {
        let mut record = vec![0x40; Self::WIDTH];
        fields::put(&mut record, &Self::FIELDS[0], &self.state)?;
        fields::put(&mut record, &Self::FIELDS[1], &self.local_code)?;
        fields::put(&mut record, &Self::FIELDS[2], &self.ssn)?;
        fields::put(&mut record, &Self::FIELDS[3], &self.case_id)?;
        fields::put(&mut record, &Self::FIELDS[4], &self.last_name)?;
        fields::put(&mut record, &Self::FIELDS[5], &self.first_name)?;
        fields::put(&mut record, &Self::FIELDS[6], &self.certified_arrearage)?;
        fields::put(&mut record, &Self::FIELDS[7], &self.collection)?;
        fields::put(&mut record, &Self::FIELDS[8], &self.adjustment)?;
        fields::put(&mut record, &Self::FIELDS[9], &self.adjustment_year)?;
        fields::put(&mut record, &Self::FIELDS[10], &self.offset_year)?;
        fields::put(&mut record, &Self::FIELDS[11], &self.return_indicator)?;
        fields::put(&mut record, &Self::FIELDS[12], &self.case_type)?;
        fields::put(&mut record, &Self::FIELDS[13], &self.transfer_state)?;
        fields::put(&mut record, &Self::FIELDS[14], &self.transfer_local_code)?;
        fields::put(&mut record, &Self::FIELDS[15], &self.payment_name)?;
        fields::put(&mut record, &Self::FIELDS[16], &self.payment_street)?;
        fields::put(&mut record, &Self::FIELDS[17], &self.payment_city_and_state)?;
        fields::put(&mut record, &Self::FIELDS[18], &self.payment_zip)?;
        fields::put(&mut record, &Self::FIELDS[19], &self.offset_type)?;
        fields::put(&mut record, &Self::FIELDS[20], &self.fee)?;
        fields::put(&mut record, &Self::FIELDS[21], &self.injured_spouse)?;
        fields::put(&mut record, &Self::FIELDS[22], &self.zero_balance_delete)?;
        fields::put(&mut record, &Self::FIELDS[23], &self.trace_number)?;
        fields::put(&mut record, &Self::FIELDS[24], &self.filler)?;
        Ok(record)
    }

    fn texts(&self) -> Vec<String> {
        vec![
            self.state.clone(),
            self.local_code.clone(),
            self.ssn.clone(),
            self.case_id.clone(),
            self.last_name.clone(),
            self.first_name.clone(),
            self.certified_arrearage.clone(),
            self.collection.clone(),
            self.adjustment.clone(),
            self.adjustment_year.clone(),
            self.offset_year.clone(),
            self.return_indicator.clone(),
            self.case_type.clone(),
            self.transfer_state.clone(),
            self.transfer_local_code.clone(),
            self.payment_name.clone(),
            self.payment_street.clone(),
            self.payment_city_and_state.clone(),
            self.payment_zip.clone(),
            self.offset_type.clone(),
            self.fee.clone(),
            self.injured_spouse.clone(),
            self.zero_balance_delete.clone(),
            self.trace_number.clone(),
            self.filler.clone(),
        ]
    }

    fn numbers(&self) -> Vec<Option<u64>> {
        vec![
            None,
            None,
            None,
            None,
            None,
            None,
            self.certified_arrearage_cents(),
            self.collection_cents(),
            self.adjustment_cents(),
            self.adjustment_year_number(),
            self.offset_year_number(),
            None,
            None,
            None,
            None,
            None,
            None,
            None,
            None,
            None,
            self.fee_cents(),
            None,
            None,
            None,
            None,
        ]
    }
}

impl Line {
    /// Certified Arrearage Amount in cents; none where it isn't 11 digits.
    pub fn certified_arrearage_cents(&self) -> Option<u64> {
        fields::cents(&self.certified_arrearage, 11)
    }

    /// Sets Certified Arrearage Amount, 11 digits with two decimal places.
    ///
    /// # Errors
    ///
    /// A number of more digits; the record is then as before.
    pub fn set_certified_arrearage_cents(&mut self, number: u64) -> Result<(), Unfit> {
        self.certified_arrearage = fields::digits("certified_arrearage", 11, number)?;
        Ok(())
    }

    /// Collection Amount in cents; none where it isn't 11 digits.
    pub fn collection_cents(&self) -> Option<u64> {
        fields::cents(&self.collection, 11)
    }

    /// Sets Collection Amount, 11 digits with two decimal places.
    ///
    /// # Errors
    ///
    /// A number of more digits; the record is then as before.
    pub fn set_collection_cents(&mut self, number: u64) -> Result<(), Unfit> {
        self.collection = fields::digits("collection", 11, number)?;
        Ok(())
    }

    /// Adjustment Amount in cents; none where it isn't 11 digits.
    pub fn adjustment_cents(&self) -> Option<u64> {
        fields::cents(&self.adjustment, 11)
    }

    /// Sets Adjustment Amount, 11 digits with two decimal places.
    ///
    /// # Errors
    ///
    /// A number of more digits; the record is then as before.
    pub fn set_adjustment_cents(&mut self, number: u64) -> Result<(), Unfit> {
        self.adjustment = fields::digits("adjustment", 11, number)?;
        Ok(())
    }

    /// Adjustment Year as a number; none where it isn't 4 digits.
    pub fn adjustment_year_number(&self) -> Option<u64> {
        fields::number(&self.adjustment_year, 4)
    }

    /// Sets Adjustment Year, 4 digits.
    ///
    /// # Errors
    ///
    /// A number of more digits; the record is then as before.
    pub fn set_adjustment_year_number(&mut self, number: u64) -> Result<(), Unfit> {
        self.adjustment_year = fields::digits("adjustment_year", 4, number)?;
        Ok(())
    }

    /// Offset Year as a number; none where it isn't 4 digits.
    pub fn offset_year_number(&self) -> Option<u64> {
        fields::number(&self.offset_year, 4)
    }

    /// Sets Offset Year, 4 digits.
    ///
    /// # Errors
    ///
    /// A number of more digits; the record is then as before.
    pub fn set_offset_year_number(&mut self, number: u64) -> Result<(), Unfit> {
        self.offset_year = fields::digits("offset_year", 4, number)?;
        Ok(())
    }

    /// Fee Amount in cents; none where it isn't 5 digits.
    pub fn fee_cents(&self) -> Option<u64> {
        fields::cents(&self.fee, 5)
    }

    /// Sets Fee Amount, 5 digits with two decimal places.
    ///
    /// # Errors
    ///
    /// A number of more digits; the record is then as before.
    pub fn set_fee_cents(&mut self, number: u64) -> Result<(), Unfit> {
        self.fee = fields::digits("fee", 5, number)?;
        Ok(())
    }
}

impl fmt::Debug for Line {
    fn fmt(&self, f: &mut fmt::Formatter<'_>) -> fmt::Result {
        fields::debug(self, "Line", f)
    }
}

/// The TOTAL record of a collection file (Chart 0-5, 240 bytes).
#[derive(Clone, Default, PartialEq, Eq, Hash)]
pub struct Total {
    /// Submitting State Code, columns 1–2.
    pub state: String,
    /// Filler, columns 3–5.
    pub filler_1: String,
    /// Total Control, columns 6–14: TOTAL and four spaces.
    pub mark: String,
    /// Filler, columns 15–34.
    pub filler_2: String,
    /// Total Adjustments, columns 35–49: lines with an adjustment above zero, fifteen digits.
    pub adjustments: String,
    /// Total Collections, columns 50–64: lines with a collection above zero, fifteen digits.
    pub collections: String,
    /// Total Certified Arrearage Amount, columns 65–75.
    pub certified_arrearage: String,
    /// Total Collection Amount, columns 76–86.
    pub collection: String,
    /// Total Adjustment Amount, columns 87–97.
    pub adjustment: String,
    /// Total Net Amount, columns 98–108.
    pub net: String,
    /// Filler, columns 109–240.
    pub filler_3: String,
}

impl Record for Total {
    const NAME: &'static str = "total";
    const WIDTH: usize = 240;
    const FIELDS: &'static [Field] = &[
        Field { name: "state", title: "Submitting State Code", first: 1, last: 2, kind: Kind::Text },
        Field { name: "filler_1", title: "Filler", first: 3, last: 5, kind: Kind::Filler },
        Field { name: "mark", title: "Total Control", first: 6, last: 14, kind: Kind::Text },
        Field { name: "filler_2", title: "Filler", first: 15, last: 34, kind: Kind::Filler },
        Field { name: "adjustments", title: "Total Adjustments", first: 35, last: 49, kind: Kind::Number },
        Field { name: "collections", title: "Total Collections", first: 50, last: 64, kind: Kind::Number },
        Field { name: "certified_arrearage", title: "Total Certified Arrearage Amount", first: 65, last: 75, kind: Kind::Amount },
        Field { name: "collection", title: "Total Collection Amount", first: 76, last: 86, kind: Kind::Amount },
        Field { name: "adjustment", title: "Total Adjustment Amount", first: 87, last: 97, kind: Kind::Amount },
        Field { name: "net", title: "Total Net Amount", first: 98, last: 108, kind: Kind::Amount },
        Field { name: "filler_3", title: "Filler", first: 109, last: 240, kind: Kind::Filler },
    ];

    fn read(record: &[u8]) -> Option<Self> {
        (record.len() == Self::WIDTH).then_some(())?;
        Some(Total {
            state: fields::text(record, 1, 2),
            filler_1: fields::text(record, 3, 5),
            mark: fields::text(record, 6, 14),
            filler_2: fields::text(record, 15, 34),
            adjustments: fields::text(record, 35, 49),
            collections: fields::text(record, 50, 64),
            certified_arrearage: fields::text(record, 65, 75),
            collection: fields::text(record, 76, 86),
            adjustment: fields::text(record, 87, 97),
            net: fields::text(record, 98, 108),
            filler_3: fields::text(record, 109, 240),
        })
    }

    fn write(&self) -> Result<Vec<u8>, Unfit> {
        let mut record = vec![0x40; Self::WIDTH];
        fields::put(&mut record, &Self::FIELDS[0], &self.state)?;
        fields::put(&mut record, &Self::FIELDS[1], &self.filler_1)?;
        fields::put(&mut record, &Self::FIELDS[2], &self.mark)?;
        fields::put(&mut record, &Self::FIELDS[3], &self.filler_2)?;
        fields::put(&mut record, &Self::FIELDS[4], &self.adjustments)?;
        fields::put(&mut record, &Self::FIELDS[5], &self.collections)?;
        fields::put(&mut record, &Self::FIELDS[6], &self.certified_arrearage)?;
        fields::put(&mut record, &Self::FIELDS[7], &self.collection)?;
        fields::put(&mut record, &Self::FIELDS[8], &self.adjustment)?;
        fields::put(&mut record, &Self::FIELDS[9], &self.net)?;
        fields::put(&mut record, &Self::FIELDS[10], &self.filler_3)?;
        Ok(record)
    }

    fn texts(&self) -> Vec<String> {
        vec![
            self.state.clone(),
            self.filler_1.clone(),
            self.mark.clone(),
            self.filler_2.clone(),
            self.adjustments.clone(),
            self.collections.clone(),
            self.certified_arrearage.clone(),
            self.collection.clone(),
            self.adjustment.clone(),
            self.net.clone(),
            self.filler_3.clone(),
        ]
    }

    fn numbers(&self) -> Vec<Option<u64>> {
        vec![
            None,
            None,
            None,
            None,
            self.adjustments_number(),
            self.collections_number(),
            self.certified_arrearage_cents(),
            self.collection_cents(),
            self.adjustment_cents(),
            self.net_cents(),
            None,
        ]
    }
}

impl Total {
    /// Total Adjustments as a number; none where it isn't 15 digits.
    pub fn adjustments_number(&self) -> Option<u64> {
        fields::number(&self.adjustments, 15)
    }

    /// Sets Total Adjustments, 15 digits.
    ///
    /// # Errors
    ///
    /// A number of more digits; the record is then as before.
    pub fn set_adjustments_number(&mut self, number: u64) -> Result<(), Unfit> {
        self.adjustments = fields::digits("adjustments", 15, number)?;
        Ok(())
    }

    /// Total Collections as a number; none where it isn't 15 digits.
    pub fn collections_number(&self) -> Option<u64> {
        fields::number(&self.collections, 15)
    }

    /// Sets Total Collections, 15 digits.
    ///
    /// # Errors
    ///
    /// A number of more digits; the record is then as before.
    pub fn set_collections_number(&mut self, number: u64) -> Result<(), Unfit> {
        self.collections = fields::digits("collections", 15, number)?;
        Ok(())
    }

    /// Total Certified Arrearage Amount in cents; none where it isn't 11 digits.
    pub fn certified_arrearage_cents(&self) -> Option<u64> {
        fields::cents(&self.certified_arrearage, 11)
    }

    /// Sets Total Certified Arrearage Amount, 11 digits with two decimal places.
    ///
    /// # Errors
    ///
    /// A number of more digits; the record is then as before.
    pub fn set_certified_arrearage_cents(&mut self, number: u64) -> Result<(), Unfit> {
        self.certified_arrearage = fields::digits("certified_arrearage", 11, number)?;
        Ok(())
    }

    /// Total Collection Amount in cents; none where it isn't 11 digits.
    pub fn collection_cents(&self) -> Option<u64> {
        fields::cents(&self.collection, 11)
    }

    /// Sets Total Collection Amount, 11 digits with two decimal places.
    ///
    /// # Errors
    ///
    /// A number of more digits; the record is then as before.
    pub fn set_collection_cents(&mut self, number: u64) -> Result<(), Unfit> {
        self.collection = fields::digits("collection", 11, number)?;
        Ok(())
    }

    /// Total Adjustment Amount in cents; none where it isn't 11 digits.
    pub fn adjustment_cents(&self) -> Option<u64> {
        fields::cents(&self.adjustment, 11)
    }

    /// Sets Total Adjustment Amount, 11 digits with two decimal places.
    ///
    /// # Errors
    ///
    /// A number of more digits; the record is then as before.
    pub fn set_adjustment_cents(&mut self, number: u64) -> Result<(), Unfit> {
        self.adjustment = fields::digits("adjustment", 11, number)?;
        Ok(())
    }

    /// Total Net Amount in cents; none where it isn't 11 digits.
    pub fn net_cents(&self) -> Option<u64> {
        fields::cents(&self.net, 11)
    }

    /// Sets Total Net Amount, 11 digits with two decimal places.
    ///
    /// # Errors
    ///
    /// A number of more digits; the record is then as before.
    pub fn set_net_cents(&mut self, number: u64) -> Result<(), Unfit> {
        self.net = fields::digits("net", 11, number)?;
        Ok(())
    }
}

impl fmt::Debug for Total {
    fn fmt(&self, f: &mut fmt::Formatter<'_>) -> fmt::Result {
        fields::debug(self, "Total", f)
    }
}

/// A case on a case page (case page, 132 bytes).
#[derive(Clone, Default, PartialEq, Eq, Hash)]
pub struct PageLine {
    /// Submitting State Code, columns 1–2: as in the row, like the fields below.
    pub state: String,
    /// SSN, columns 3–11.
    pub ssn: String,
    /// Case Type Indicator, column 12.
    pub case_type: String,
    /// Filler, column 13: a space.
    pub filler_1: String,
    /// Local Code, columns 14–16.
    pub local_code: String,
    /// Filler, column 17: a space.
    pub filler_2: String,
    /// Obligor Last Name, columns 18–37.
    pub last_name: String,
    /// Filler, column 38: a space.
    pub filler_3: String,
    /// Obligor First Name, columns 39–53.
    pub first_name: String,
    /// Filler, column 54: a space.
    pub filler_4: String,
    /// Arrearage Amount, columns 55–62: whole dollars; the cents are not shown.
    pub arrearage: String,
    /// Filler, column 63: a space.
    pub filler_5: String,
    /// Number of Exclusions, column 64: how many exclusions the row has, 0 to 8.
    pub exclusion_count: String,
    /// Filler, columns 65–132: spaces.
    pub filler_6: String,
}

impl Record for PageLine {
    const NAME: &'static str = "page_line";
    const WIDTH: usize = 132;
    const FIELDS: &'static [Field] = &[
        Field { name: "state", title: "Submitting State Code", first: 1, last: 2, kind: Kind::Text },
        Field { name: "ssn", title: "SSN", first: 3, last: 11, kind: Kind::Ssn },
        Field { name: "case_type", title: "Case Type Indicator", first: 12, last: 12, kind: Kind::Text },
        Field { name: "filler_1", title: "Filler", first: 13, last: 13, kind: Kind::Filler },
        Field { name: "local_code", title: "Local Code", first: 14, last: 16, kind: Kind::Text },
        Field { name: "filler_2", title: "Filler", first: 17, last: 17, kind: Kind::Filler },
        Field { name: "last_name", title: "Obligor Last Name", first: 18, last: 37, kind: Kind::Text },
        Field { name: "filler_3", title: "Filler", first: 38, last: 38, kind: Kind::Filler },
        Field { name: "first_name", title: "Obligor First Name", first: 39, last: 53, kind: Kind::Text },
        Field { name: "filler_4", title: "Filler", first: 54, last: 54, kind: Kind::Filler },
        Field { name: "arrearage", title: "Arrearage Amount", first: 55, last: 62, kind: Kind::Number },
        Field { name: "filler_5", title: "Filler", first: 63, last: 63, kind: Kind::Filler },
        Field { name: "exclusion_count", title: "Number of Exclusions", first: 64, last: 64, kind: Kind::Number },
        Field { name: "filler_6", title: "Filler", first: 65, last: 132, kind: Kind::Filler },
    ];

    fn read(record: &[u8]) -> Option<Self> {
        (record.len() == Self::WIDTH).then_some(())?;
        Some(PageLine {
            state: fields::text(record, 1, 2),
            ssn: fields::text(record, 3, 11),
            case_type: fields::text(record, 12, 12),
            filler_1: fields::text(record, 13, 13),
            local_code: fields::text(record, 14, 16),
            filler_2: fields::text(record, 17, 17),
            last_name: fields::text(record, 18, 37),
            filler_3: fields::text(record, 38, 38),
            first_name: fields::text(record, 39, 53),
            filler_4: fields::text(record, 54, 54),
            arrearage: fields::text(record, 55, 62),
            filler_5: fields::text(record, 63, 63),
            exclusion_count: fields::text(record, 64, 64),
            filler_6: fields::text(record, 65, 132),
        })
    }

    fn write(&self) -> Result<Vec<u8>, Unfit> {
        let mut record = vec![0x40; Self::WIDTH];
        fields::put(&mut record, &Self::FIELDS[0], &self.state)?;
        fields::put(&mut record, &Self::FIELDS[1], &self.ssn)?;
        fields::put(&mut record, &Self::FIELDS[2], &self.case_type)?;
        fields::put(&mut record, &Self::FIELDS[3], &self.filler_1)?;
        fields::put(&mut record, &Self::FIELDS[4], &self.local_code)?;
        fields::put(&mut record, &Self::FIELDS[5], &self.filler_2)?;
        fields::put(&mut record, &Self::FIELDS[6], &self.last_name)?;
        fields::put(&mut record, &Self::FIELDS[7], &self.filler_3)?;
        fields::put(&mut record, &Self::FIELDS[8], &self.first_name)?;
        fields::put(&mut record, &Self::FIELDS[9], &self.filler_4)?;
        fields::put(&mut record, &Self::FIELDS[10], &self.arrearage)?;
        fields::put(&mut record, &Self::FIELDS[11], &self.filler_5)?;
        fields::put(&mut record, &Self::FIELDS[12], &self.exclusion_count)?;
        fields::put(&mut record, &Self::FIELDS[13], &self.filler_6)?;
        Ok(record)
    }

    fn texts(&self) -> Vec<String> {
        vec![
            self.state.clone(),
            self.ssn.clone(),
            self.case_type.clone(),
            self.filler_1.clone(),
            self.local_code.clone(),
            self.filler_2.clone(),
            self.last_name.clone(),
            self.filler_3.clone(),
            self.first_name.clone(),
            self.filler_4.clone(),
            self.arrearage.clone(),
            self.filler_5.clone(),
            self.exclusion_count.clone(),
            self.filler_6.clone(),
        ]
    }

    fn numbers(&self) -> Vec<Option<u64>> {
        vec![
            None,
            None,
            None,
            None,
            None,
            None,
            None,
            None,
            None,
            None,
            self.arrearage_number(),
            None,
            self.exclusion_count_number(),
            None,
        ]
    }
}

impl PageLine {
    /// Arrearage Amount as a number; none where it isn't 8 digits.
    pub fn arrearage_number(&self) -> Option<u64> {
        fields::number(&self.arrearage, 8)
    }

    /// Sets Arrearage Amount, 8 digits.
    ///
    /// # Errors
    ///
    /// A number of more digits; the record is then as before.
    pub fn set_arrearage_number(&mut self, number: u64) -> Result<(), Unfit> {
        self.arrearage = fields::digits("arrearage", 8, number)?;
        Ok(())
    }

    /// Number of Exclusions as a number; none where it isn't 1 digits.
    pub fn exclusion_count_number(&self) -> Option<u64> {
        fields::number(&self.exclusion_count, 1)
    }

    /// Sets Number of Exclusions, 1 digits.
    ///
    /// # Errors
    ///
    /// A number of more digits; the record is then as before.
    pub fn set_exclusion_count_number(&mut self, number: u64) -> Result<(), Unfit> {
        self.exclusion_count = fields::digits("exclusion_count", 1, number)?;
        Ok(())
    }
}

impl fmt::Debug for PageLine {
    fn fmt(&self, f: &mut fmt::Formatter<'_>) -> fmt::Result {
        fields::debug(self, "PageLine", f)
    }
}

/// The heading of a case page (case page, 132 bytes).
#[derive(Clone, Default, PartialEq, Eq, Hash)]
pub struct PageHeading {
    /// Heading, columns 1–5: CASES.
    pub mark: String,
    /// Filler, column 6: a space.
    pub filler_1: String,
    /// Page Number, columns 7–12: six digits, the first page being 000001.
    pub page_number: String,
    /// Filler, columns 13–132: spaces.
    pub filler_2: String,
}

impl Record for PageHeading {
    const NAME: &'static str = "page_heading";
    const WIDTH: usize = 132;
    const FIELDS: &'static [Field] = &[
        Field { name: "mark", title: "Heading", first: 1, last: 5, kind: Kind::Text },
        Field { name: "filler_1", title: "Filler", first: 6, last: 6, kind: Kind::Filler },
        Field { name: "page_number", title: "Page Number", first: 7, last: 12, kind: Kind::Number },
        Field { name: "filler_2", title: "Filler", first: 13, last: 132, kind: Kind::Filler },
    ];

    fn read(record: &[u8]) -> Option<Self> {
        (record.len() == Self::WIDTH).then_some(())?;
        Some(PageHeading {
            mark: fields::text(record, 1, 5),
            filler_1: fields::text(record, 6, 6),
            page_number: fields::text(record, 7, 12),
            filler_2: fields::text(record, 13, 132),
        })
    }

    fn write(&self) -> Result<Vec<u8>, Unfit> {
        let mut record = vec![0x40; Self::WIDTH];
        fields::put(&mut record, &Self::FIELDS[0], &self.mark)?;
        fields::put(&mut record, &Self::FIELDS[1], &self.filler_1)?;
        fields::put(&mut record, &Self::FIELDS[2], &self.page_number)?;
        fields::put(&mut record, &Self::FIELDS[3], &self.filler_2)?;
        Ok(record)
    }

    fn texts(&self) -> Vec<String> {
        vec![
            self.mark.clone(),
            self.filler_1.clone(),
            self.page_number.clone(),
            self.filler_2.clone(),
        ]
    }

    fn numbers(&self) -> Vec<Option<u64>> {
        vec![
            None,
            None,
            self.page_number_number(),
            None,
        ]
    }
}

impl PageHeading {
    /// Page Number as a number; none where it isn't 6 digits.
    pub fn page_number_number(&self) -> Option<u64> {
        fields::number(&self.page_number, 6)
    }

    /// Sets Page Number, 6 digits.
    ///
    /// # Errors
    ///
    /// A number of more digits; the record is then as before.
    pub fn set_page_number_number(&mut self, number: u64) -> Result<(), Unfit> {
        self.page_number = fields::digits("page_number", 6, number)?;
        Ok(())
    }
}

impl fmt::Debug for PageHeading {
    fn fmt(&self, f: &mut fmt::Formatter<'_>) -> fmt::Result {
        fields::debug(self, "PageHeading", f)
    }
}

/// The foot of a case page (case page, 132 bytes).
#[derive(Clone, Default, PartialEq, Eq, Hash)]
pub struct PageFoot {
    /// Foot, columns 1–5: TOTAL.
    pub mark: String,
    /// Filler, column 6: a space.
    pub filler_1: String,
    /// Cases on This Page, columns 7–10: four digits, 0001 to 0058.
    pub cases: String,
    /// Filler, columns 11–132: spaces.
    pub filler_2: String,
}

impl Record for PageFoot {
    const NAME: &'static str = "page_foot";
    const WIDTH: usize = 132;
    const FIELDS: &'static [Field] = &[
        Field { name: "mark", title: "Foot", first: 1, last: 5, kind: Kind::Text },
        Field { name: "filler_1", title: "Filler", first: 6, last: 6, kind: Kind::Filler },
        Field { name: "cases", title: "Cases on This Page", first: 7, last: 10, kind: Kind::Number },
        Field { name: "filler_2", title: "Filler", first: 11, last: 132, kind: Kind::Filler },
    ];

    fn read(record: &[u8]) -> Option<Self> {
        (record.len() == Self::WIDTH).then_some(())?;
        Some(PageFoot {
            mark: fields::text(record, 1, 5),
            filler_1: fields::text(record, 6, 6),
            cases: fields::text(record, 7, 10),
            filler_2: fields::text(record, 11, 132),
        })
    }

    fn write(&self) -> Result<Vec<u8>, Unfit> {
        let mut record = vec![0x40; Self::WIDTH];
        fields::put(&mut record, &Self::FIELDS[0], &self.mark)?;
        fields::put(&mut record, &Self::FIELDS[1], &self.filler_1)?;
        fields::put(&mut record, &Self::FIELDS[2], &self.cases)?;
        fields::put(&mut record, &Self::FIELDS[3], &self.filler_2)?;
        Ok(record)
    }

    fn texts(&self) -> Vec<String> {
        vec![
            self.mark.clone(),
            self.filler_1.clone(),
            self.cases.clone(),
            self.filler_2.clone(),
        ]
    }

    fn numbers(&self) -> Vec<Option<u64>> {
        vec![
            None,
            None,
            self.cases_number(),
            None,
        ]
    }
}

impl PageFoot {
    /// Cases on This Page as a number; none where it isn't 4 digits.
    pub fn cases_number(&self) -> Option<u64> {
        fields::number(&self.cases, 4)
    }

    /// Sets Cases on This Page, 4 digits.
    ///
    /// # Errors
    ///
    /// A number of more digits; the record is then as before.
    pub fn set_cases_number(&mut self, number: u64) -> Result<(), Unfit> {
        self.cases = fields::digits("cases", 4, number)?;
        Ok(())
    }
}

impl fmt::Debug for PageFoot {
    fn fmt(&self, f: &mut fmt::Formatter<'_>) -> fmt::Result {
        fields::debug(self, "PageFoot", f)
    }
}
