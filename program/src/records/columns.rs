//! The columns of each kind of record, in the words of the charts; those of a row in the words of document 01 where the charts
//! have none. Columns count from 1.
//!
//! Written by bin/generate-layouts from package/layouts.json; not to be edited.

/// How the bytes of a field are shown.
#[derive(Clone, Copy, Debug, PartialEq, Eq)]
pub enum Kind {
    /// What someone typed: a number of nine digits or more in it is masked as an SSN is.
    Text,
    /// A count or a total, in digits.
    Number,
    /// Nine digits of which the first five are masked.
    Ssn,
    /// Digits with two decimal places assumed, whose last may carry a positive sign.
    Amount,
    /// A byte whose bits are the eight exclusions.
    Set,
    Filler,
}

#[derive(Clone, Copy, Debug, PartialEq, Eq)]
pub struct Field {
    pub name: &'static str,
    pub first: usize,
    pub last: usize,
    pub kind: Kind,
}

/// The fields of a record, in order and without gaps.
pub type Layout = &'static [Field];

const fn field(name: &'static str, first: usize, last: usize, kind: Kind) -> Field {
    Field {
        name,
        first,
        last,
        kind,
    }
}

/// A row of the master (a case's row, 200 bytes).
#[rustfmt::skip]
pub mod row {
    use super::*;

    pub const STATE: Field = field("Submitting State Code", 1, 2, Kind::Text);
    pub const SSN: Field = field("SSN", 3, 11, Kind::Ssn);
    pub const CASE_TYPE: Field = field("Case Type Indicator", 12, 12, Kind::Text);
    pub const LOCAL_CODE: Field = field("Local Code", 13, 15, Kind::Text);
    pub const CASE_ID: Field = field("Case ID", 16, 30, Kind::Text);
    pub const LAST_NAME: Field = field("Obligor Last Name", 31, 50, Kind::Text);
    pub const FIRST_NAME: Field = field("Obligor First Name", 51, 65, Kind::Text);
    pub const ARREARAGE: Field = field("Arrearage Amount", 66, 73, Kind::Text);
    pub const TRANSFER_STATE: Field = field("Transfer State Code", 74, 75, Kind::Text);
    pub const TRANSFER_LOCAL_CODE: Field = field("Transfer Local Code", 76, 78, Kind::Text);
    pub const PAYMENT_YEAR: Field = field("Payment Year", 79, 82, Kind::Text);
    pub const PAYMENT: Field = field("Accumulated Payment Amount", 83, 90, Kind::Text);
    pub const ADDRESS_LINE_1: Field = field("Obligor Address Line 1", 91, 120, Kind::Text);
    pub const ADDRESS_LINE_2: Field = field("Obligor Address Line 2", 121, 150, Kind::Text);
    pub const CITY: Field = field("Obligor City", 151, 175, Kind::Text);
    pub const ADDRESS_STATE: Field = field("Obligor State", 176, 177, Kind::Text);
    pub const ZIP: Field = field("Obligor Zip Code", 178, 186, Kind::Text);
    pub const DATE_ISSUED: Field = field("Date Issued", 187, 194, Kind::Text);
    pub const EXCLUSIONS: Field = field("Exclusion Indicator(s)", 195, 195, Kind::Set);
    pub const STATUS: Field = field("Status", 196, 196, Kind::Text);
    pub const CENTS: Field = field("Cents", 197, 198, Kind::Text);
    pub const FILLER: Field = field("Filler", 199, 200, Kind::Filler);
    pub const FIELDS: Layout = &[
        STATE,
        SSN,
        CASE_TYPE,
        LOCAL_CODE,
        CASE_ID,
        LAST_NAME,
        FIRST_NAME,
        ARREARAGE,
        TRANSFER_STATE,
        TRANSFER_LOCAL_CODE,
        PAYMENT_YEAR,
        PAYMENT,
        ADDRESS_LINE_1,
        ADDRESS_LINE_2,
        CITY,
        ADDRESS_STATE,
        ZIP,
        DATE_ISSUED,
        EXCLUSIONS,
        STATUS,
        CENTS,
        FILLER,
    ];
}

/// A detail of a batch (Chart A-1, 245 bytes).
#[rustfmt::skip]
pub mod detail {
    use super::*;

    pub const STATE: Field = field("Submitting State Code", 1, 2, Kind::Text);
    pub const LOCAL_CODE: Field = field("Local Code", 3, 5, Kind::Text);
    pub const SSN: Field = field("SSN", 6, 14, Kind::Ssn);
    pub const CASE_ID: Field = field("Case ID", 15, 29, Kind::Text);
    pub const LAST_NAME: Field = field("Obligor Last Name", 30, 49, Kind::Text);
    pub const FIRST_NAME: Field = field("Obligor First Name", 50, 64, Kind::Text);
    pub const ARREARAGE: Field = field("Arrearage Amount", 65, 72, Kind::Text);
    pub const TRANSACTION_TYPE: Field = field("Transaction Type", 73, 73, Kind::Text);
    pub const CASE_TYPE: Field = field("Case Type Indicator", 74, 74, Kind::Text);
    pub const TRANSFER_STATE: Field = field("Transfer State Code", 75, 76, Kind::Text);
    pub const TRANSFER_LOCAL_CODE: Field = field("Transfer Local Code", 77, 79, Kind::Text);
    pub const PROCESS_YEAR: Field = field("Process Year", 80, 83, Kind::Text);
    pub const ADDRESS_LINE_1: Field = field("Obligor Address Line 1", 84, 113, Kind::Text);
    pub const ADDRESS_LINE_2: Field = field("Obligor Address Line 2", 114, 143, Kind::Text);
    pub const CITY: Field = field("Obligor City", 144, 168, Kind::Text);
    pub const ADDRESS_STATE: Field = field("Obligor State", 169, 170, Kind::Text);
    pub const ZIP: Field = field("Obligor Zip Code", 171, 179, Kind::Text);
    pub const DATE_ISSUED: Field = field("Date Issued", 180, 187, Kind::Text);
    pub const EXCLUSIONS: Field = field("Exclusion Indicator(s)", 188, 227, Kind::Text);
    pub const FILLER: Field = field("Filler", 228, 244, Kind::Filler);
    pub const REQUEST_CODE: Field = field("Request Code", 245, 245, Kind::Text);
    pub const FIELDS: Layout = &[
        STATE,
        LOCAL_CODE,
        SSN,
        CASE_ID,
        LAST_NAME,
        FIRST_NAME,
        ARREARAGE,
        TRANSACTION_TYPE,
        CASE_TYPE,
        TRANSFER_STATE,
        TRANSFER_LOCAL_CODE,
        PROCESS_YEAR,
        ADDRESS_LINE_1,
        ADDRESS_LINE_2,
        CITY,
        ADDRESS_STATE,
        ZIP,
        DATE_ISSUED,
        EXCLUSIONS,
        FILLER,
        REQUEST_CODE,
    ];
}

/// The control record of a batch (Chart A-2, 245 bytes).
#[rustfmt::skip]
pub mod control {
    use super::*;

    pub const STATE: Field = field("Submitting State Code", 1, 2, Kind::Text);
    pub const MARK: Field = field("Control", 3, 5, Kind::Text);
    pub const TANF_RECORDS: Field = field("Total TANF Records", 6, 14, Kind::Number);
    pub const NON_TANF_RECORDS: Field = field("Total Non-TANF Records", 15, 23, Kind::Number);
    pub const TANF_AMOUNT: Field = field("Total TANF Amount", 24, 34, Kind::Number);
    pub const NON_TANF_AMOUNT: Field = field("Total Non-TANF Amount", 35, 45, Kind::Number);
    pub const FILLER: Field = field("Filler", 46, 245, Kind::Filler);
    pub const FIELDS: Layout = &[
        STATE,
        MARK,
        TANF_RECORDS,
        NON_TANF_RECORDS,
        TANF_AMOUNT,
        NON_TANF_AMOUNT,
        FILLER,
    ];
}

/// A reject record (Chart 0-1, 245 bytes).
#[rustfmt::skip]
pub mod reject {
    use super::*;

    pub const STATE: Field = field("Submitting State Code", 1, 2, Kind::Text);
    pub const LOCAL_CODE: Field = field("Local Code", 3, 5, Kind::Text);
    pub const SSN: Field = field("SSN", 6, 14, Kind::Ssn);
    pub const CASE_ID: Field = field("Case ID", 15, 29, Kind::Text);
    pub const LAST_NAME: Field = field("Obligor Last Name", 30, 49, Kind::Text);
    pub const FIRST_NAME: Field = field("Obligor First Name", 50, 64, Kind::Text);
    pub const ARREARAGE: Field = field("Arrearage Amount", 65, 72, Kind::Text);
    pub const TRANSACTION_TYPE: Field = field("Transaction Type", 73, 73, Kind::Text);
    pub const CASE_TYPE: Field = field("Case Type Indicator", 74, 74, Kind::Text);
    pub const TRANSFER_STATE: Field = field("Transfer State Code", 75, 76, Kind::Text);
    pub const TRANSFER_LOCAL_CODE: Field = field("Transfer Local Code", 77, 79, Kind::Text);
    pub const PROCESS_YEAR: Field = field("Process Year", 80, 83, Kind::Text);
    pub const ADDRESS_LINE_1: Field = field("Obligor Address Line 1", 84, 113, Kind::Text);
    pub const ADDRESS_LINE_2: Field = field("Obligor Address Line 2", 114, 143, Kind::Text);
    pub const CITY: Field = field("Obligor City", 144, 168, Kind::Text);
    pub const ADDRESS_STATE: Field = field("Obligor State", 169, 170, Kind::Text);
    pub const ZIP: Field = field("Obligor Zip Code", 171, 179, Kind::Text);
    pub const DATE_ISSUED: Field = field("Date Issued", 180, 187, Kind::Text);
    pub const EXCLUSIONS: Field = field("Exclusion Indicator(s)", 188, 227, Kind::Text);
    pub const ERROR_CODES: Field = field("Rejected Error Codes", 228, 239, Kind::Text);
    pub const STORED_NAME: Field = field("OCSE Last Name", 240, 243, Kind::Text);
    pub const FILLER: Field = field("Filler", 244, 244, Kind::Filler);
    pub const REQUEST_CODE: Field = field("Request Code", 245, 245, Kind::Text);
    pub const FIELDS: Layout = &[
        STATE,
        LOCAL_CODE,
        SSN,
        CASE_ID,
        LAST_NAME,
        FIRST_NAME,
        ARREARAGE,
        TRANSACTION_TYPE,
        CASE_TYPE,
        TRANSFER_STATE,
        TRANSFER_LOCAL_CODE,
        PROCESS_YEAR,
        ADDRESS_LINE_1,
        ADDRESS_LINE_2,
        CITY,
        ADDRESS_STATE,
        ZIP,
        DATE_ISSUED,
        EXCLUSIONS,
        ERROR_CODES,
        STORED_NAME,
        FILLER,
        REQUEST_CODE,
    ];
}

/// The control record of a reject file (Chart 0-2, 245 bytes).
#[rustfmt::skip]
pub mod reject_control {
    use super::*;

    pub const STATE: Field = field("Submitting State Code", 1, 2, Kind::Text);
    pub const MARK: Field = field("Reject Control", 3, 5, Kind::Text);
    pub const TANF_ACCEPTED: Field = field("TANF Accepted", 6, 14, Kind::Number);
    pub const TANF_REJECTED: Field = field("TANF Rejected", 15, 23, Kind::Number);
    pub const NON_TANF_ACCEPTED: Field = field("Non-TANF Accepted", 24, 32, Kind::Number);
    pub const NON_TANF_REJECTED: Field = field("Non-TANF Rejected", 33, 41, Kind::Number);
    pub const TANF_WARNED: Field = field("TANF Warning", 42, 50, Kind::Number);
    pub const NON_TANF_WARNED: Field = field("Non-TANF Warning", 51, 59, Kind::Number);
    pub const FILLER: Field = field("Filler", 60, 245, Kind::Filler);
    pub const FIELDS: Layout = &[
        STATE,
        MARK,
        TANF_ACCEPTED,
        TANF_REJECTED,
        NON_TANF_ACCEPTED,
        NON_TANF_REJECTED,
        TANF_WARNED,
        NON_TANF_WARNED,
        FILLER,
    ];
}

/// A REC record of a reconciliation file (Chart 0-6, 245 bytes).
#[rustfmt::skip]
pub mod rec {
    use super::*;

    pub const MARK: Field = field("Record Identifier", 1, 3, Kind::Text);
    pub const STATE: Field = field("Submitting State Code", 4, 5, Kind::Text);
    pub const LOCAL_CODE: Field = field("Local Code", 6, 8, Kind::Text);
    pub const SSN: Field = field("SSN", 9, 17, Kind::Ssn);
    pub const CASE_ID: Field = field("Case ID", 18, 32, Kind::Text);
    pub const LAST_NAME: Field = field("Obligor Last Name", 33, 52, Kind::Text);
    pub const FIRST_NAME: Field = field("Obligor First Name", 53, 62, Kind::Text);
    pub const ARREARAGE: Field = field("Current Arrearage Amount", 63, 70, Kind::Text);
    pub const CASE_TYPE: Field = field("Case Type Indicator", 71, 71, Kind::Text);
    pub const NOTICE_DATE: Field = field("Last Pre-Offset Notice Date", 72, 79, Kind::Text);
    pub const NOTICE_HOLD: Field = field("Pre-Offset Notice Hold Indicator", 80, 80, Kind::Text);
    pub const PASSPORT_ACTION: Field = field("Department of State Action Indicator", 81, 81, Kind::Text);
    pub const EXCLUSION_ADM: Field = field("Administrative Offset Exclusion Indicator", 82, 84, Kind::Text);
    pub const EXCLUSION_RET: Field = field("Federal Retirement Offset Exclusion Indicator", 85, 87, Kind::Text);
    pub const EXCLUSION_VEN: Field = field("Vendor Payments Exclusion Indicator", 88, 90, Kind::Text);
    pub const EXCLUSION_SAL: Field = field("Federal Salary Exclusion Indicator", 91, 93, Kind::Text);
    pub const EXCLUSION_TAX: Field = field("Tax Refund Offset Exclusion Indicator", 94, 96, Kind::Text);
    pub const EXCLUSION_PAS: Field = field("Passport Denial Exclusion Indicator", 97, 99, Kind::Text);
    pub const EXCLUSION_FIN: Field = field("Multi-State Financial Institution Data Match Exclusion Indicator", 100, 102, Kind::Text);
    pub const EXCLUSION_DCK: Field = field("Debt Check Exclusion Indicator", 103, 105, Kind::Text);
    pub const FILLER: Field = field("Filler", 106, 245, Kind::Filler);
    pub const FIELDS: Layout = &[
        MARK,
        STATE,
        LOCAL_CODE,
        SSN,
        CASE_ID,
        LAST_NAME,
        FIRST_NAME,
        ARREARAGE,
        CASE_TYPE,
        NOTICE_DATE,
        NOTICE_HOLD,
        PASSPORT_ACTION,
        EXCLUSION_ADM,
        EXCLUSION_RET,
        EXCLUSION_VEN,
        EXCLUSION_SAL,
        EXCLUSION_TAX,
        EXCLUSION_PAS,
        EXCLUSION_FIN,
        EXCLUSION_DCK,
        FILLER,
    ];
}

/// The RCT record of a reconciliation file (Chart 0-7, 245 bytes).
#[rustfmt::skip]
pub mod rct {
    use super::*;

    pub const MARK: Field = field("Record Identifier", 1, 3, Kind::Text);
    pub const STATE: Field = field("Submitting State Code", 4, 5, Kind::Text);
    pub const TANF: Field = field("TANF Cases Returned", 6, 14, Kind::Number);
    pub const NON_TANF: Field = field("Non-TANF Cases Returned", 15, 23, Kind::Number);
    pub const TOTAL: Field = field("Total Cases Returned", 24, 32, Kind::Number);
    pub const DATE: Field = field("Extract Date", 33, 40, Kind::Text);
    pub const FILLER: Field = field("Filler", 41, 245, Kind::Filler);
    pub const FIELDS: Layout = &[
        MARK,
        STATE,
        TANF,
        NON_TANF,
        TOTAL,
        DATE,
        FILLER,
    ];
}

/// A contact record (Chart A-3, 220 bytes).
#[rustfmt::skip]
pub mod contact {
    use super::*;

    pub const STATE: Field = field("Submitting State Code", 1, 2, Kind::Text);
    pub const LOCAL_CODE: Field = field("Local Code", 3, 5, Kind::Text);
    pub const TELEPHONE_1: Field = field("Telephone Number 1", 6, 19, Kind::Text);
    pub const EXTENSION_1: Field = field("Extension 1", 20, 23, Kind::Text);
    pub const TELEPHONE_2: Field = field("Telephone Number 2", 24, 37, Kind::Text);
    pub const EXTENSION_2: Field = field("Extension 2", 38, 41, Kind::Text);
    pub const AGENCY_NAME: Field = field("State Agency Name", 42, 76, Kind::Text);
    pub const ADDRESS_LINE_1: Field = field("State Agency Address Line 1", 77, 111, Kind::Text);
    pub const ADDRESS_LINE_2: Field = field("State Agency Address Line 2", 112, 146, Kind::Text);
    pub const ADDRESS_LINE_3: Field = field("State Agency Address Line 3", 147, 181, Kind::Text);
    pub const ADDRESS_LINE_4: Field = field("State Agency Address Line 4", 182, 216, Kind::Text);
    pub const FILLER: Field = field("Filler", 217, 220, Kind::Filler);
    pub const FIELDS: Layout = &[
        STATE,
        LOCAL_CODE,
        TELEPHONE_1,
        EXTENSION_1,
        TELEPHONE_2,
        EXTENSION_2,
        AGENCY_NAME,
        ADDRESS_LINE_1,
        ADDRESS_LINE_2,
        ADDRESS_LINE_3,
        ADDRESS_LINE_4,
        FILLER,
    ];
}

/// A line of a collection file (Chart 0-4, 240 bytes).
#[rustfmt::skip]
pub mod line {
    use super::*;

    pub const STATE: Field = field("Submitting State Code", 1, 2, Kind::Text);
    pub const LOCAL_CODE: Field = field("Local Code", 3, 5, Kind::Text);
    pub const SSN: Field = field("SSN", 6, 14, Kind::Ssn);
    pub const CASE_ID: Field = field("Case ID", 15, 29, Kind::Text);
    pub const LAST_NAME: Field = field("Obligor Last Name", 30, 49, Kind::Text);
    pub const FIRST_NAME: Field = field("Obligor First Name", 50, 64, Kind::Text);
    pub const CERTIFIED_ARREARAGE: Field = field("Certified Arrearage Amount", 65, 75, Kind::Amount);
    pub const COLLECTION: Field = field("Collection Amount", 76, 86, Kind::Amount);
    pub const ADJUSTMENT: Field = field("Adjustment Amount", 87, 97, Kind::Amount);
    pub const ADJUSTMENT_YEAR: Field = field("Adjustment Year", 98, 101, Kind::Text);
    pub const OFFSET_YEAR: Field = field("Offset Year", 102, 105, Kind::Text);
    pub const RETURN_INDICATOR: Field = field("Return Indicator", 106, 106, Kind::Text);
    pub const CASE_TYPE: Field = field("Case Type Indicator", 107, 107, Kind::Text);
    pub const TRANSFER_STATE: Field = field("Transfer State Code", 108, 109, Kind::Text);
    pub const TRANSFER_LOCAL_CODE: Field = field("Transfer Local Code", 110, 112, Kind::Text);
    pub const PAYMENT_NAME: Field = field("Payment Name", 113, 147, Kind::Text);
    pub const PAYMENT_STREET: Field = field("Payment Street Address", 148, 182, Kind::Text);
    pub const PAYMENT_CITY_AND_STATE: Field = field("Payment City and State", 183, 207, Kind::Text);
    pub const PAYMENT_ZIP: Field = field("Payment Zip Code", 208, 216, Kind::Text);
    pub const OFFSET_TYPE: Field = field("Offset Type", 217, 219, Kind::Text);
    pub const FEE: Field = field("Fee Amount", 220, 224, Kind::Amount);
    pub const INJURED_SPOUSE: Field = field("Injured Spouse Indicator", 225, 225, Kind::Text);
    pub const ZERO_BALANCE_DELETE: Field = field("Zero Balance Delete Indicator", 226, 226, Kind::Text);
    pub const TRACE_NUMBER: Field = field("TOP Trace Number", 227, 236, Kind::Text);
    pub const FILLER: Field = field("Filler", 237, 240, Kind::Filler);
    pub const FIELDS: Layout = &[
        STATE,
        LOCAL_CODE,
        SSN,
        CASE_ID,
        LAST_NAME,
        FIRST_NAME,
        CERTIFIED_ARREARAGE,
        COLLECTION,
        ADJUSTMENT,
        ADJUSTMENT_YEAR,
        OFFSET_YEAR,
        RETURN_INDICATOR,
        CASE_TYPE,
        TRANSFER_STATE,
        TRANSFER_LOCAL_CODE,
        PAYMENT_NAME,
        PAYMENT_STREET,
        PAYMENT_CITY_AND_STATE,
        PAYMENT_ZIP,
        OFFSET_TYPE,
        FEE,
        INJURED_SPOUSE,
        ZERO_BALANCE_DELETE,
        TRACE_NUMBER,
        FILLER,
    ];
}

/// The TOTAL record of a collection file (Chart 0-5, 240 bytes).
#[rustfmt::skip]
pub mod total {
    use super::*;

    pub const STATE: Field = field("Submitting State Code", 1, 2, Kind::Text);
    pub const FILLER_1: Field = field("Filler", 3, 5, Kind::Filler);
    pub const MARK: Field = field("Total Control", 6, 14, Kind::Text);
    pub const FILLER_2: Field = field("Filler", 15, 34, Kind::Filler);
    pub const ADJUSTMENTS: Field = field("Total Adjustments", 35, 49, Kind::Number);
    pub const COLLECTIONS: Field = field("Total Collections", 50, 64, Kind::Number);
    pub const CERTIFIED_ARREARAGE: Field = field("Total Certified Arrearage Amount", 65, 75, Kind::Amount);
    pub const COLLECTION: Field = field("Total Collection Amount", 76, 86, Kind::Amount);
    pub const ADJUSTMENT: Field = field("Total Adjustment Amount", 87, 97, Kind::Amount);
    pub const NET: Field = field("Total Net Amount", 98, 108, Kind::Amount);
    pub const FILLER_3: Field = field("Filler", 109, 240, Kind::Filler);
    pub const FIELDS: Layout = &[
        STATE,
        FILLER_1,
        MARK,
        FILLER_2,
        ADJUSTMENTS,
        COLLECTIONS,
        CERTIFIED_ARREARAGE,
        COLLECTION,
        ADJUSTMENT,
        NET,
        FILLER_3,
    ];
}

/// A code of a list of local codes.
pub mod local_code {
    use super::*;

    pub const FIELDS: Layout = &[field("Local Code", 1, 3, Kind::Text)];
}
