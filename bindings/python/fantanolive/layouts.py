"""Rows and records as dataclasses: every field a str without the spaces at its end, but the exclusion set of a row, an int.

Written by bin/generate-layouts from package/layouts.json; not to be edited.

    row = Row.read(master[:200])
    row.last_name, row.arrearage_number
    row.write()

What was read is written as the same bytes, whatever they are. A number is None where the columns aren't digits. Nothing is judged
here: that is the part of the calls. repr() shows no SSN."""
import dataclasses
from typing import ClassVar, Dict, Optional, Tuple, Type

from ._records import Field, Record, cents_of, digits_of, number_of

__all__ = ["Contact", "Control", "Detail", "EXCLUSIONS", "Field", "LAYOUTS", "Line", "PageFoot", "PageHeading", "PageLine", "Rct", "Rec", "Record", "Reject", "RejectControl", "Row", "Total"]

# The names of the exclusions in the set of a row, the lowest bit first.
EXCLUSIONS = ("ADM", "RET", "VEN", "SAL", "TAX", "PAS", "FIN", "DCK")


@dataclasses.dataclass(repr=False)
class Row(Record):
    """A row of the master (a case's row, 200 bytes)."""

    NAME: ClassVar[str] = "row"
    WIDTH: ClassVar[int] = 200
    FIELDS: ClassVar[Tuple[Field, ...]] = (
        Field("state", "Submitting State Code", 1, 2, "text"),
        Field("ssn", "SSN", 3, 11, "ssn"),
        Field("case_type", "Case Type Indicator", 12, 12, "text"),
        Field("local_code", "Local Code", 13, 15, "text"),
        Field("case_id", "Case ID", 16, 30, "text"),
        Field("last_name", "Obligor Last Name", 31, 50, "text"),
        Field("first_name", "Obligor First Name", 51, 65, "text"),
        Field("arrearage", "Arrearage Amount", 66, 73, "number"),
        Field("transfer_state", "Transfer State Code", 74, 75, "text"),
        Field("transfer_local_code", "Transfer Local Code", 76, 78, "text"),
        Field("payment_year", "Payment Year", 79, 82, "number"),
        Field("payment", "Accumulated Payment Amount", 83, 90, "number"),
        Field("address_line_1", "Obligor Address Line 1", 91, 120, "text"),
        Field("address_line_2", "Obligor Address Line 2", 121, 150, "text"),
        Field("city", "Obligor City", 151, 175, "text"),
        Field("address_state", "Obligor State", 176, 177, "text"),
        Field("zip", "Obligor Zip Code", 178, 186, "text"),
        Field("date_issued", "Date Issued", 187, 194, "date"),
        Field("exclusions", "Exclusion Indicator(s)", 195, 195, "set"),
        Field("status", "Status", 196, 196, "text"),
        Field("cents", "Cents", 197, 198, "number"),
        Field("filler", "Filler", 199, 200, "filler"),
    )

    # Submitting State Code, 1-2: key
    state: str = ""
    # SSN, 3-11: key
    ssn: str = ""
    # Case Type Indicator, 12: key: A or N
    case_type: str = ""
    # Local Code, 13-15: three digits; 000 is the state's own
    local_code: str = ""
    # Case ID, 16-30: the state's own, free
    case_id: str = ""
    # Obligor Last Name, 31-50: 31-34 are compared with the name of later records
    last_name: str = ""
    # Obligor First Name, 51-65
    first_name: str = ""
    # Arrearage Amount, 66-73: whole dollars, eight digits
    arrearage: str = ""
    # Transfer State Code, 74-75: blank until a T
    transfer_state: str = ""
    # Transfer Local Code, 76-78: blank until a T
    transfer_local_code: str = ""
    # Payment Year, 79-82: 0000 until an S
    payment_year: str = ""
    # Accumulated Payment Amount, 83-90: eight digits, zeros until an S
    payment: str = ""
    # Obligor Address Line 1, 91-120
    address_line_1: str = ""
    # Obligor Address Line 2, 121-150
    address_line_2: str = ""
    # Obligor City, 151-175
    city: str = ""
    # Obligor State, 176-177
    address_state: str = ""
    # Obligor Zip Code, 178-186
    zip: str = ""
    # Date Issued, 187-194: CCYYMMDD of the notice, or blank
    date_issued: str = ""
    # Exclusion Indicator(s), 195: one binary byte; bits, lowest first: ADM RET VEN SAL TAX PAS FIN DCK; 00 is the empty set
    exclusions: int = 0
    # Status, 196: space is live, D is deleted
    status: str = ""
    # Cents, 197-198: two digits
    cents: str = ""
    # Filler, 199-200: spaces
    filler: str = ""

    @property
    def arrearage_number(self) -> Optional[int]:
        """Arrearage Amount as a number; None where it isn't 8 digits."""
        return number_of(self.arrearage, 8)

    @arrearage_number.setter
    def arrearage_number(self, number: int) -> None:
        self.arrearage = digits_of("arrearage", number, 8)

    @property
    def payment_year_number(self) -> Optional[int]:
        """Payment Year as a number; None where it isn't 4 digits."""
        return number_of(self.payment_year, 4)

    @payment_year_number.setter
    def payment_year_number(self, number: int) -> None:
        self.payment_year = digits_of("payment_year", number, 4)

    @property
    def payment_number(self) -> Optional[int]:
        """Accumulated Payment Amount as a number; None where it isn't 8 digits."""
        return number_of(self.payment, 8)

    @payment_number.setter
    def payment_number(self, number: int) -> None:
        self.payment = digits_of("payment", number, 8)

    @property
    def cents_number(self) -> Optional[int]:
        """Cents as a number; None where it isn't 2 digits."""
        return number_of(self.cents, 2)

    @cents_number.setter
    def cents_number(self, number: int) -> None:
        self.cents = digits_of("cents", number, 2)


@dataclasses.dataclass(repr=False)
class Detail(Record):
    """A detail of a batch (Chart A-1, 245 bytes)."""

    NAME: ClassVar[str] = "detail"
    WIDTH: ClassVar[int] = 245
    FIELDS: ClassVar[Tuple[Field, ...]] = (
        Field("state", "Submitting State Code", 1, 2, "text"),
        Field("local_code", "Local Code", 3, 5, "text"),
        Field("ssn", "SSN", 6, 14, "ssn"),
        Field("case_id", "Case ID", 15, 29, "text"),
        Field("last_name", "Obligor Last Name", 30, 49, "text"),
        Field("first_name", "Obligor First Name", 50, 64, "text"),
        Field("arrearage", "Arrearage Amount", 65, 72, "number"),
        Field("transaction_type", "Transaction Type", 73, 73, "text"),
        Field("case_type", "Case Type Indicator", 74, 74, "text"),
        Field("transfer_state", "Transfer State Code", 75, 76, "text"),
        Field("transfer_local_code", "Transfer Local Code", 77, 79, "text"),
        Field("process_year", "Process Year", 80, 83, "number"),
        Field("address_line_1", "Obligor Address Line 1", 84, 113, "text"),
        Field("address_line_2", "Obligor Address Line 2", 114, 143, "text"),
        Field("city", "Obligor City", 144, 168, "text"),
        Field("address_state", "Obligor State", 169, 170, "text"),
        Field("zip", "Obligor Zip Code", 171, 179, "text"),
        Field("date_issued", "Date Issued", 180, 187, "date"),
        Field("exclusions", "Exclusion Indicator(s)", 188, 227, "text"),
        Field("filler", "Filler", 228, 244, "filler"),
        Field("request_code", "Request Code", 245, 245, "text"),
    )

    # Submitting State Code, 1-2: the submitting state, that of the control record; key
    state: str = ""
    # Local Code, 3-5: A and L
    local_code: str = ""
    # SSN, 6-14: key
    ssn: str = ""
    # Case ID, 15-29: A and C
    case_id: str = ""
    # Obligor Last Name, 30-49: all types; stored by A and B
    last_name: str = ""
    # Obligor First Name, 50-64: A and B
    first_name: str = ""
    # Arrearage Amount, 65-72: A and M: whole dollars; S: the accumulated payment
    arrearage: str = ""
    # Transaction Type, 73: A B C D L M R S T Z
    transaction_type: str = ""
    # Case Type Indicator, 74: A or N; key
    case_type: str = ""
    # Transfer State Code, 75-76: T
    transfer_state: str = ""
    # Transfer Local Code, 77-79: T; may be blank
    transfer_local_code: str = ""
    # Process Year, 80-83: S
    process_year: str = ""
    # Obligor Address Line 1, 84-113: A and Z
    address_line_1: str = ""
    # Obligor Address Line 2, 114-143: A and Z
    address_line_2: str = ""
    # Obligor City, 144-168: A and Z
    city: str = ""
    # Obligor State, 169-170: A and Z
    address_state: str = ""
    # Obligor Zip Code, 171-179: A and Z: nine digits, or five and four spaces
    zip: str = ""
    # Date Issued, 180-187: A: CCYYMMDD, or blank
    date_issued: str = ""
    # Exclusion Indicator(s), 188-227: A and R: words with commas or spaces between them
    exclusions: str = ""
    # Filler, 228-244: spaces
    filler: str = ""
    # Request Code, 245: not looked at
    request_code: str = ""

    @property
    def arrearage_number(self) -> Optional[int]:
        """Arrearage Amount as a number; None where it isn't 8 digits."""
        return number_of(self.arrearage, 8)

    @arrearage_number.setter
    def arrearage_number(self, number: int) -> None:
        self.arrearage = digits_of("arrearage", number, 8)

    @property
    def process_year_number(self) -> Optional[int]:
        """Process Year as a number; None where it isn't 4 digits."""
        return number_of(self.process_year, 4)

    @process_year_number.setter
    def process_year_number(self, number: int) -> None:
        self.process_year = digits_of("process_year", number, 4)


@dataclasses.dataclass(repr=False)
class Control(Record):
    """The control record of a batch (Chart A-2, 245 bytes)."""

    NAME: ClassVar[str] = "control"
    WIDTH: ClassVar[int] = 245
    FIELDS: ClassVar[Tuple[Field, ...]] = (
        Field("state", "Submitting State Code", 1, 2, "text"),
        Field("mark", "Control", 3, 5, "text"),
        Field("tanf_records", "Total TANF Records", 6, 14, "number"),
        Field("non_tanf_records", "Total Non-TANF Records", 15, 23, "number"),
        Field("tanf_amount", "Total TANF Amount", 24, 34, "number"),
        Field("non_tanf_amount", "Total Non-TANF Amount", 35, 45, "number"),
        Field("filler", "Filler", 46, 245, "filler"),
    )

    # Submitting State Code, 1-2: the submitting state
    state: str = ""
    # Control, 3-5: CTL
    mark: str = ""
    # Total TANF Records, 6-14: details with case type A, nine digits
    tanf_records: str = ""
    # Total Non-TANF Records, 15-23: details with case type N, nine digits
    non_tanf_records: str = ""
    # Total TANF Amount, 24-34: dollars of A and M details with case type A, eleven digits
    tanf_amount: str = ""
    # Total Non-TANF Amount, 35-45: dollars of A and M details with case type N, eleven digits
    non_tanf_amount: str = ""
    # Filler, 46-245: spaces
    filler: str = ""

    @property
    def tanf_records_number(self) -> Optional[int]:
        """Total TANF Records as a number; None where it isn't 9 digits."""
        return number_of(self.tanf_records, 9)

    @tanf_records_number.setter
    def tanf_records_number(self, number: int) -> None:
        self.tanf_records = digits_of("tanf_records", number, 9)

    @property
    def non_tanf_records_number(self) -> Optional[int]:
        """Total Non-TANF Records as a number; None where it isn't 9 digits."""
        return number_of(self.non_tanf_records, 9)

    @non_tanf_records_number.setter
    def non_tanf_records_number(self, number: int) -> None:
        self.non_tanf_records = digits_of("non_tanf_records", number, 9)

    @property
    def tanf_amount_number(self) -> Optional[int]:
        """Total TANF Amount as a number; None where it isn't 11 digits."""
        return number_of(self.tanf_amount, 11)

    @tanf_amount_number.setter
    def tanf_amount_number(self, number: int) -> None:
        self.tanf_amount = digits_of("tanf_amount", number, 11)

    @property
    def non_tanf_amount_number(self) -> Optional[int]:
        """Total Non-TANF Amount as a number; None where it isn't 11 digits."""
        return number_of(self.non_tanf_amount, 11)

    @non_tanf_amount_number.setter
    def non_tanf_amount_number(self, number: int) -> None:
        self.non_tanf_amount = digits_of("non_tanf_amount", number, 11)


@dataclasses.dataclass(repr=False)
class Reject(Record):
    """A reject record (Chart 0-1, 245 bytes)."""

    NAME: ClassVar[str] = "reject"
    WIDTH: ClassVar[int] = 245
    FIELDS: ClassVar[Tuple[Field, ...]] = (
        Field("state", "Submitting State Code", 1, 2, "text"),
        Field("local_code", "Local Code", 3, 5, "text"),
        Field("ssn", "SSN", 6, 14, "ssn"),
        Field("case_id", "Case ID", 15, 29, "text"),
        Field("last_name", "Obligor Last Name", 30, 49, "text"),
        Field("first_name", "Obligor First Name", 50, 64, "text"),
        Field("arrearage", "Arrearage Amount", 65, 72, "number"),
        Field("transaction_type", "Transaction Type", 73, 73, "text"),
        Field("case_type", "Case Type Indicator", 74, 74, "text"),
        Field("transfer_state", "Transfer State Code", 75, 76, "text"),
        Field("transfer_local_code", "Transfer Local Code", 77, 79, "text"),
        Field("process_year", "Process Year", 80, 83, "number"),
        Field("address_line_1", "Obligor Address Line 1", 84, 113, "text"),
        Field("address_line_2", "Obligor Address Line 2", 114, 143, "text"),
        Field("city", "Obligor City", 144, 168, "text"),
        Field("address_state", "Obligor State", 169, 170, "text"),
        Field("zip", "Obligor Zip Code", 171, 179, "text"),
        Field("date_issued", "Date Issued", 180, 187, "date"),
        Field("exclusions", "Exclusion Indicator(s)", 188, 227, "text"),
        Field("error_codes", "Rejected Error Codes", 228, 239, "text"),
        Field("stored_name", "OCSE Last Name", 240, 243, "text"),
        Field("filler", "Filler", 244, 244, "filler"),
        Field("request_code", "Request Code", 245, 245, "text"),
    )

    # Submitting State Code, 1-2: as sent
    state: str = ""
    # Local Code, 3-5: as sent
    local_code: str = ""
    # SSN, 6-14: as sent
    ssn: str = ""
    # Case ID, 15-29: as sent
    case_id: str = ""
    # Obligor Last Name, 30-49: as sent
    last_name: str = ""
    # Obligor First Name, 50-64: as sent
    first_name: str = ""
    # Arrearage Amount, 65-72: as sent
    arrearage: str = ""
    # Transaction Type, 73: as sent
    transaction_type: str = ""
    # Case Type Indicator, 74: as sent
    case_type: str = ""
    # Transfer State Code, 75-76: as sent
    transfer_state: str = ""
    # Transfer Local Code, 77-79: as sent
    transfer_local_code: str = ""
    # Process Year, 80-83: as sent
    process_year: str = ""
    # Obligor Address Line 1, 84-113: as sent
    address_line_1: str = ""
    # Obligor Address Line 2, 114-143: as sent
    address_line_2: str = ""
    # Obligor City, 144-168: as sent
    city: str = ""
    # Obligor State, 169-170: as sent
    address_state: str = ""
    # Obligor Zip Code, 171-179: as sent
    zip: str = ""
    # Date Issued, 180-187: as sent
    date_issued: str = ""
    # Exclusion Indicator(s), 188-227: as sent
    exclusions: str = ""
    # Rejected Error Codes, 228-239: the six lowest, rising, two digits each; spaces behind them
    error_codes: str = ""
    # OCSE Last Name, 240-243: with 17 the first four characters of the row's last name, else spaces
    stored_name: str = ""
    # Filler, 244: a space
    filler: str = ""
    # Request Code, 245: as sent
    request_code: str = ""

    @property
    def arrearage_number(self) -> Optional[int]:
        """Arrearage Amount as a number; None where it isn't 8 digits."""
        return number_of(self.arrearage, 8)

    @arrearage_number.setter
    def arrearage_number(self, number: int) -> None:
        self.arrearage = digits_of("arrearage", number, 8)

    @property
    def process_year_number(self) -> Optional[int]:
        """Process Year as a number; None where it isn't 4 digits."""
        return number_of(self.process_year, 4)

    @process_year_number.setter
    def process_year_number(self, number: int) -> None:
        self.process_year = digits_of("process_year", number, 4)


@dataclasses.dataclass(repr=False)
class RejectControl(Record):
    """The control record of a reject file (Chart 0-2, 245 bytes)."""

    NAME: ClassVar[str] = "reject_control"
    WIDTH: ClassVar[int] = 245
    FIELDS: ClassVar[Tuple[Field, ...]] = (
        Field("state", "Submitting State Code", 1, 2, "text"),
        Field("mark", "Reject Control", 3, 5, "text"),
        Field("tanf_accepted", "TANF Accepted", 6, 14, "number"),
        Field("tanf_rejected", "TANF Rejected", 15, 23, "number"),
        Field("non_tanf_accepted", "Non-TANF Accepted", 24, 32, "number"),
        Field("non_tanf_rejected", "Non-TANF Rejected", 33, 41, "number"),
        Field("tanf_warned", "TANF Warning", 42, 50, "number"),
        Field("non_tanf_warned", "Non-TANF Warning", 51, 59, "number"),
        Field("filler", "Filler", 60, 245, "filler"),
    )

    # Submitting State Code, 1-2: that of the batch's control record
    state: str = ""
    # Reject Control, 3-5: CTL
    mark: str = ""
    # TANF Accepted, 6-14: nine digits each; accepted includes warned
    tanf_accepted: str = ""
    # TANF Rejected, 15-23
    tanf_rejected: str = ""
    # Non-TANF Accepted, 24-32
    non_tanf_accepted: str = ""
    # Non-TANF Rejected, 33-41
    non_tanf_rejected: str = ""
    # TANF Warning, 42-50
    tanf_warned: str = ""
    # Non-TANF Warning, 51-59
    non_tanf_warned: str = ""
    # Filler, 60-245: spaces
    filler: str = ""

    @property
    def tanf_accepted_number(self) -> Optional[int]:
        """TANF Accepted as a number; None where it isn't 9 digits."""
        return number_of(self.tanf_accepted, 9)

    @tanf_accepted_number.setter
    def tanf_accepted_number(self, number: int) -> None:
        self.tanf_accepted = digits_of("tanf_accepted", number, 9)

    @property
    def tanf_rejected_number(self) -> Optional[int]:
        """TANF Rejected as a number; None where it isn't 9 digits."""
        return number_of(self.tanf_rejected, 9)

    @tanf_rejected_number.setter
    def tanf_rejected_number(self, number: int) -> None:
        self.tanf_rejected = digits_of("tanf_rejected", number, 9)

    @property
    def non_tanf_accepted_number(self) -> Optional[int]:
        """Non-TANF Accepted as a number; None where it isn't 9 digits."""
        return number_of(self.non_tanf_accepted, 9)

    @non_tanf_accepted_number.setter
    def non_tanf_accepted_number(self, number: int) -> None:
        self.non_tanf_accepted = digits_of("non_tanf_accepted", number, 9)

    @property
    def non_tanf_rejected_number(self) -> Optional[int]:
        """Non-TANF Rejected as a number; None where it isn't 9 digits."""
        return number_of(self.non_tanf_rejected, 9)

    @non_tanf_rejected_number.setter
    def non_tanf_rejected_number(self, number: int) -> None:
        self.non_tanf_rejected = digits_of("non_tanf_rejected", number, 9)

    @property
    def tanf_warned_number(self) -> Optional[int]:
        """TANF Warning as a number; None where it isn't 9 digits."""
        return number_of(self.tanf_warned, 9)

    @tanf_warned_number.setter
    def tanf_warned_number(self, number: int) -> None:
        self.tanf_warned = digits_of("tanf_warned", number, 9)

    @property
    def non_tanf_warned_number(self) -> Optional[int]:
        """Non-TANF Warning as a number; None where it isn't 9 digits."""
        return number_of(self.non_tanf_warned, 9)

    @non_tanf_warned_number.setter
    def non_tanf_warned_number(self, number: int) -> None:
        self.non_tanf_warned = digits_of("non_tanf_warned", number, 9)


@dataclasses.dataclass(repr=False)
class Rec(Record):
    """A REC record of a reconciliation file (Chart 0-6, 245 bytes)."""

    NAME: ClassVar[str] = "rec"
    WIDTH: ClassVar[int] = 245
    FIELDS: ClassVar[Tuple[Field, ...]] = (
        Field("mark", "Record Identifier", 1, 3, "text"),
        Field("state", "Submitting State Code", 4, 5, "text"),
        Field("local_code", "Local Code", 6, 8, "text"),
        Field("ssn", "SSN", 9, 17, "ssn"),
        Field("case_id", "Case ID", 18, 32, "text"),
        Field("last_name", "Obligor Last Name", 33, 52, "text"),
        Field("first_name", "Obligor First Name", 53, 62, "text"),
        Field("arrearage", "Current Arrearage Amount", 63, 70, "number"),
        Field("case_type", "Case Type Indicator", 71, 71, "text"),
        Field("notice_date", "Last Pre-Offset Notice Date", 72, 79, "date"),
        Field("notice_hold", "Pre-Offset Notice Hold Indicator", 80, 80, "text"),
        Field("passport_action", "Department of State Action Indicator", 81, 81, "text"),
        Field("exclusion_adm", "Administrative Offset Exclusion Indicator", 82, 84, "text"),
        Field("exclusion_ret", "Federal Retirement Offset Exclusion Indicator", 85, 87, "text"),
        Field("exclusion_ven", "Vendor Payments Exclusion Indicator", 88, 90, "text"),
        Field("exclusion_sal", "Federal Salary Exclusion Indicator", 91, 93, "text"),
        Field("exclusion_tax", "Tax Refund Offset Exclusion Indicator", 94, 96, "text"),
        Field("exclusion_pas", "Passport Denial Exclusion Indicator", 97, 99, "text"),
        Field("exclusion_fin", "Multi-State Financial Institution Data Match Exclusion Indicator", 100, 102, "text"),
        Field("exclusion_dck", "Debt Check Exclusion Indicator", 103, 105, "text"),
        Field("filler", "Filler", 106, 245, "filler"),
    )

    # Record Identifier, 1-3: REC
    mark: str = ""
    # Submitting State Code, 4-5: as in the row, like the fields below
    state: str = ""
    # Local Code, 6-8
    local_code: str = ""
    # SSN, 9-17
    ssn: str = ""
    # Case ID, 18-32
    case_id: str = ""
    # Obligor Last Name, 33-52
    last_name: str = ""
    # Obligor First Name, 53-62: its first ten characters
    first_name: str = ""
    # Current Arrearage Amount, 63-70: the dollars; the cents are not shown
    arrearage: str = ""
    # Case Type Indicator, 71
    case_type: str = ""
    # Last Pre-Offset Notice Date, 72-79: the row's date issued
    notice_date: str = ""
    # Pre-Offset Notice Hold Indicator, 80: a space
    notice_hold: str = ""
    # Department of State Action Indicator, 81: a space
    passport_action: str = ""
    # Administrative Offset Exclusion Indicator, 82-84: ADM where it is in the set, else spaces; so the seven below
    exclusion_adm: str = ""
    # Federal Retirement Offset Exclusion Indicator, 85-87: RET
    exclusion_ret: str = ""
    # Vendor Payments Exclusion Indicator, 88-90: VEN
    exclusion_ven: str = ""
    # Federal Salary Exclusion Indicator, 91-93: SAL
    exclusion_sal: str = ""
    # Tax Refund Offset Exclusion Indicator, 94-96: TAX
    exclusion_tax: str = ""
    # Passport Denial Exclusion Indicator, 97-99: PAS
    exclusion_pas: str = ""
    # Multi-State Financial Institution Data Match Exclusion Indicator, 100-102: FIN
    exclusion_fin: str = ""
    # Debt Check Exclusion Indicator, 103-105: DCK
    exclusion_dck: str = ""
    # Filler, 106-245: spaces
    filler: str = ""

    @property
    def arrearage_number(self) -> Optional[int]:
        """Current Arrearage Amount as a number; None where it isn't 8 digits."""
        return number_of(self.arrearage, 8)

    @arrearage_number.setter
    def arrearage_number(self, number: int) -> None:
        self.arrearage = digits_of("arrearage", number, 8)


@dataclasses.dataclass(repr=False)
class Rct(Record):
    """The RCT record of a reconciliation file (Chart 0-7, 245 bytes)."""

    NAME: ClassVar[str] = "rct"
    WIDTH: ClassVar[int] = 245
    FIELDS: ClassVar[Tuple[Field, ...]] = (
        Field("mark", "Record Identifier", 1, 3, "text"),
        Field("state", "Submitting State Code", 4, 5, "text"),
        Field("tanf", "TANF Cases Returned", 6, 14, "number"),
        Field("non_tanf", "Non-TANF Cases Returned", 15, 23, "number"),
        Field("total", "Total Cases Returned", 24, 32, "number"),
        Field("date", "Extract Date", 33, 40, "date"),
        Field("filler", "Filler", 41, 245, "filler"),
    )

    # Record Identifier, 1-3: RCT
    mark: str = ""
    # Submitting State Code, 4-5
    state: str = ""
    # TANF Cases Returned, 6-14: REC records with case type A, nine digits
    tanf: str = ""
    # Non-TANF Cases Returned, 15-23: REC records with case type N
    non_tanf: str = ""
    # Total Cases Returned, 24-32
    total: str = ""
    # Extract Date, 33-40: the date asked for, CCYYMMDD
    date: str = ""
    # Filler, 41-245: spaces
    filler: str = ""

    @property
    def tanf_number(self) -> Optional[int]:
        """TANF Cases Returned as a number; None where it isn't 9 digits."""
        return number_of(self.tanf, 9)

    @tanf_number.setter
    def tanf_number(self, number: int) -> None:
        self.tanf = digits_of("tanf", number, 9)

    @property
    def non_tanf_number(self) -> Optional[int]:
        """Non-TANF Cases Returned as a number; None where it isn't 9 digits."""
        return number_of(self.non_tanf, 9)

    @non_tanf_number.setter
    def non_tanf_number(self, number: int) -> None:
        self.non_tanf = digits_of("non_tanf", number, 9)

    @property
    def total_number(self) -> Optional[int]:
        """Total Cases Returned as a number; None where it isn't 9 digits."""
        return number_of(self.total, 9)

    @total_number.setter
    def total_number(self, number: int) -> None:
        self.total = digits_of("total", number, 9)


@dataclasses.dataclass(repr=False)
class Contact(Record):
    """A contact record (Chart A-3, 220 bytes)."""

    NAME: ClassVar[str] = "contact"
    WIDTH: ClassVar[int] = 220
    FIELDS: ClassVar[Tuple[Field, ...]] = (
        Field("state", "Submitting State Code", 1, 2, "text"),
        Field("local_code", "Local Code", 3, 5, "text"),
        Field("telephone_1", "Telephone Number 1", 6, 19, "text"),
        Field("extension_1", "Extension 1", 20, 23, "text"),
        Field("telephone_2", "Telephone Number 2", 24, 37, "text"),
        Field("extension_2", "Extension 2", 38, 41, "text"),
        Field("agency_name", "State Agency Name", 42, 76, "text"),
        Field("address_line_1", "State Agency Address Line 1", 77, 111, "text"),
        Field("address_line_2", "State Agency Address Line 2", 112, 146, "text"),
        Field("address_line_3", "State Agency Address Line 3", 147, 181, "text"),
        Field("address_line_4", "State Agency Address Line 4", 182, 216, "text"),
        Field("filler", "Filler", 217, 220, "filler"),
    )

    # Submitting State Code, 1-2: of the table; key
    state: str = ""
    # Local Code, 3-5: three digits, 000 for the state itself; key
    local_code: str = ""
    # Telephone Number 1, 6-19: of the form `(301) 555-1212`
    telephone_1: str = ""
    # Extension 1, 20-23: up to four digits with only spaces behind, or blank
    extension_1: str = ""
    # Telephone Number 2, 24-37: of the same form, or blank
    telephone_2: str = ""
    # Extension 2, 38-41: as extension 1
    extension_2: str = ""
    # State Agency Name, 42-76: contains CHILD SUPPORT or FAMILY SUPPORT
    agency_name: str = ""
    # State Agency Address Line 1, 77-111: one of lines 1 to 3 is not blank
    address_line_1: str = ""
    # State Agency Address Line 2, 112-146
    address_line_2: str = ""
    # State Agency Address Line 3, 147-181
    address_line_3: str = ""
    # State Agency Address Line 4, 182-216: not blank
    address_line_4: str = ""
    # Filler, 217-220: spaces
    filler: str = ""


@dataclasses.dataclass(repr=False)
class Line(Record):
    """A line of a collection file (Chart 0-4, 240 bytes)."""

    NAME: ClassVar[str] = "line"
    WIDTH: ClassVar[int] = 240
    FIELDS: ClassVar[Tuple[Field, ...]] = (
        Field("state", "Submitting State Code", 1, 2, "text"),
        Field("local_code", "Local Code", 3, 5, "text"),
        Field("ssn", "SSN", 6, 14, "ssn"),
        Field("case_id", "Case ID", 15, 29, "text"),
        Field("last_name", "Obligor Last Name", 30, 49, "text"),
        Field("first_name", "Obligor First Name", 50, 64, "text"),
        Field("certified_arrearage", "Certified Arrearage Amount", 65, 75, "amount"),
        Field("collection", "Collection Amount", 76, 86, "amount"),
        Field("adjustment", "Adjustment Amount", 87, 97, "amount"),
        Field("adjustment_year", "Adjustment Year", 98, 101, "number"),
        Field("offset_year", "Offset Year", 102, 105, "number"),
        Field("return_indicator", "Return Indicator", 106, 106, "text"),
        Field("case_type", "Case Type Indicator", 107, 107, "text"),
        Field("transfer_state", "Transfer State Code", 108, 109, "text"),
        Field("transfer_local_code", "Transfer Local Code", 110, 112, "text"),
        Field("payment_name", "Payment Name", 113, 147, "text"),
        Field("payment_street", "Payment Street Address", 148, 182, "text"),
        Field("payment_city_and_state", "Payment City and State", 183, 207, "text"),
        Field("payment_zip", "Payment Zip Code", 208, 216, "text"),
        Field("offset_type", "Offset Type", 217, 219, "text"),
        Field("fee", "Fee Amount", 220, 224, "amount"),
        Field("injured_spouse", "Injured Spouse Indicator", 225, 225, "text"),
        Field("zero_balance_delete", "Zero Balance Delete Indicator", 226, 226, "text"),
        Field("trace_number", "TOP Trace Number", 227, 236, "text"),
        Field("filler", "Filler", 237, 240, "filler"),
    )

    # Submitting State Code, 1-2: with SSN and case type the key
    state: str = ""
    # Local Code, 3-5
    local_code: str = ""
    # SSN, 6-14
    ssn: str = ""
    # Case ID, 15-29
    case_id: str = ""
    # Obligor Last Name, 30-49
    last_name: str = ""
    # Obligor First Name, 50-64
    first_name: str = ""
    # Certified Arrearage Amount, 65-75: dollars and cents
    certified_arrearage: str = ""
    # Collection Amount, 76-86: in cents: ten digits and a last digit F0-F9 or C0-C9 (a digit with a plus sign)
    collection: str = ""
    # Adjustment Amount, 87-97: in cents, of the same form
    adjustment: str = ""
    # Adjustment Year, 98-101
    adjustment_year: str = ""
    # Offset Year, 102-105
    offset_year: str = ""
    # Return Indicator, 106
    return_indicator: str = ""
    # Case Type Indicator, 107
    case_type: str = ""
    # Transfer State Code, 108-109
    transfer_state: str = ""
    # Transfer Local Code, 110-112
    transfer_local_code: str = ""
    # Payment Name, 113-147
    payment_name: str = ""
    # Payment Street Address, 148-182
    payment_street: str = ""
    # Payment City and State, 183-207
    payment_city_and_state: str = ""
    # Payment Zip Code, 208-216
    payment_zip: str = ""
    # Offset Type, 217-219
    offset_type: str = ""
    # Fee Amount, 220-224
    fee: str = ""
    # Injured Spouse Indicator, 225
    injured_spouse: str = ""
    # Zero Balance Delete Indicator, 226
    zero_balance_delete: str = ""
    # TOP Trace Number, 227-236
    trace_number: str = ""
    # Filler, 237-240
    filler: str = ""

    @property
    def certified_arrearage_cents(self) -> Optional[int]:
        """Certified Arrearage Amount in cents; None where it isn't 11 digits."""
        return cents_of(self.certified_arrearage, 11)

    @certified_arrearage_cents.setter
    def certified_arrearage_cents(self, number: int) -> None:
        self.certified_arrearage = digits_of("certified_arrearage", number, 11)

    @property
    def collection_cents(self) -> Optional[int]:
        """Collection Amount in cents; None where it isn't 11 digits."""
        return cents_of(self.collection, 11)

    @collection_cents.setter
    def collection_cents(self, number: int) -> None:
        self.collection = digits_of("collection", number, 11)

    @property
    def adjustment_cents(self) -> Optional[int]:
        """Adjustment Amount in cents; None where it isn't 11 digits."""
        return cents_of(self.adjustment, 11)

    @adjustment_cents.setter
    def adjustment_cents(self, number: int) -> None:
        self.adjustment = digits_of("adjustment", number, 11)

    @property
    def adjustment_year_number(self) -> Optional[int]:
        """Adjustment Year as a number; None where it isn't 4 digits."""
        return number_of(self.adjustment_year, 4)

    @adjustment_year_number.setter
    def adjustment_year_number(self, number: int) -> None:
        self.adjustment_year = digits_of("adjustment_year", number, 4)

    @property
    def offset_year_number(self) -> Optional[int]:
        """Offset Year as a number; None where it isn't 4 digits."""
        return number_of(self.offset_year, 4)

    @offset_year_number.setter
    def offset_year_number(self, number: int) -> None:
        self.offset_year = digits_of("offset_year", number, 4)

    @property
    def fee_cents(self) -> Optional[int]:
        """Fee Amount in cents; None where it isn't 5 digits."""
        return cents_of(self.fee, 5)

    @fee_cents.setter
    def fee_cents(self, number: int) -> None:
        self.fee = digits_of("fee", number, 5)


@dataclasses.dataclass(repr=False)
class Total(Record):
    """The TOTAL record of a collection file (Chart 0-5, 240 bytes)."""

    NAME: ClassVar[str] = "total"
    WIDTH: ClassVar[int] = 240
    FIELDS: ClassVar[Tuple[Field, ...]] = (
        Field("state", "Submitting State Code", 1, 2, "text"),
        Field("filler_1", "Filler", 3, 5, "filler"),
        Field("mark", "Total Control", 6, 14, "text"),
        Field("filler_2", "Filler", 15, 34, "filler"),
        Field("adjustments", "Total Adjustments", 35, 49, "number"),
        Field("collections", "Total Collections", 50, 64, "number"),
        Field("certified_arrearage", "Total Certified Arrearage Amount", 65, 75, "amount"),
        Field("collection", "Total Collection Amount", 76, 86, "amount"),
        Field("adjustment", "Total Adjustment Amount", 87, 97, "amount"),
        Field("net", "Total Net Amount", 98, 108, "amount"),
        Field("filler_3", "Filler", 109, 240, "filler"),
    )

    # Submitting State Code, 1-2
    state: str = ""
    # Filler, 3-5
    filler_1: str = ""
    # Total Control, 6-14: TOTAL and four spaces
    mark: str = ""
    # Filler, 15-34
    filler_2: str = ""
    # Total Adjustments, 35-49: lines with an adjustment above zero, fifteen digits
    adjustments: str = ""
    # Total Collections, 50-64: lines with a collection above zero, fifteen digits
    collections: str = ""
    # Total Certified Arrearage Amount, 65-75
    certified_arrearage: str = ""
    # Total Collection Amount, 76-86
    collection: str = ""
    # Total Adjustment Amount, 87-97
    adjustment: str = ""
    # Total Net Amount, 98-108
    net: str = ""
    # Filler, 109-240
    filler_3: str = ""

    @property
    def adjustments_number(self) -> Optional[int]:
        """Total Adjustments as a number; None where it isn't 15 digits."""
        return number_of(self.adjustments, 15)

    @adjustments_number.setter
    def adjustments_number(self, number: int) -> None:
        self.adjustments = digits_of("adjustments", number, 15)

    @property
    def collections_number(self) -> Optional[int]:
        """Total Collections as a number; None where it isn't 15 digits."""
        return number_of(self.collections, 15)

    @collections_number.setter
    def collections_number(self, number: int) -> None:
        self.collections = digits_of("collections", number, 15)

    @property
    def certified_arrearage_cents(self) -> Optional[int]:
        """Total Certified Arrearage Amount in cents; None where it isn't 11 digits."""
        return cents_of(self.certified_arrearage, 11)

    @certified_arrearage_cents.setter
    def certified_arrearage_cents(self, number: int) -> None:
        self.certified_arrearage = digits_of("certified_arrearage", number, 11)

    @property
    def collection_cents(self) -> Optional[int]:
        """Total Collection Amount in cents; None where it isn't 11 digits."""
        return cents_of(self.collection, 11)

    @collection_cents.setter
    def collection_cents(self, number: int) -> None:
        self.collection = digits_of("collection", number, 11)

    @property
    def adjustment_cents(self) -> Optional[int]:
        """Total Adjustment Amount in cents; None where it isn't 11 digits."""
        return cents_of(self.adjustment, 11)

    @adjustment_cents.setter
    def adjustment_cents(self, number: int) -> None:
        self.adjustment = digits_of("adjustment", number, 11)

    @property
    def net_cents(self) -> Optional[int]:
        """Total Net Amount in cents; None where it isn't 11 digits."""
        return cents_of(self.net, 11)

    @net_cents.setter
    def net_cents(self, number: int) -> None:
        self.net = digits_of("net", number, 11)


@dataclasses.dataclass(repr=False)
class PageLine(Record):
    """A case on a case page (case page, 132 bytes)."""

    NAME: ClassVar[str] = "page_line"
    WIDTH: ClassVar[int] = 132
    FIELDS: ClassVar[Tuple[Field, ...]] = (
        Field("state", "Submitting State Code", 1, 2, "text"),
        Field("ssn", "SSN", 3, 11, "ssn"),
        Field("case_type", "Case Type Indicator", 12, 12, "text"),
        Field("filler_1", "Filler", 13, 13, "filler"),
        Field("local_code", "Local Code", 14, 16, "text"),
        Field("filler_2", "Filler", 17, 17, "filler"),
        Field("last_name", "Obligor Last Name", 18, 37, "text"),
        Field("filler_3", "Filler", 38, 38, "filler"),
        Field("first_name", "Obligor First Name", 39, 53, "text"),
        Field("filler_4", "Filler", 54, 54, "filler"),
        Field("arrearage", "Arrearage Amount", 55, 62, "number"),
        Field("filler_5", "Filler", 63, 63, "filler"),
        Field("exclusion_count", "Number of Exclusions", 64, 64, "number"),
        Field("filler_6", "Filler", 65, 132, "filler"),
    )

    # Submitting State Code, 1-2: as in the row, like the fields below
    state: str = ""
    # SSN, 3-11
    ssn: str = ""
    # Case Type Indicator, 12
    case_type: str = ""
    # Filler, 13: a space
    filler_1: str = ""
    # Local Code, 14-16
    local_code: str = ""
    # Filler, 17: a space
    filler_2: str = ""
    # Obligor Last Name, 18-37
    last_name: str = ""
    # Filler, 38: a space
    filler_3: str = ""
    # Obligor First Name, 39-53
    first_name: str = ""
    # Filler, 54: a space
    filler_4: str = ""
    # Arrearage Amount, 55-62: whole dollars; the cents are not shown
    arrearage: str = ""
    # Filler, 63: a space
    filler_5: str = ""
    # Number of Exclusions, 64: how many exclusions the row has, 0 to 8
    exclusion_count: str = ""
    # Filler, 65-132: spaces
    filler_6: str = ""

    @property
    def arrearage_number(self) -> Optional[int]:
        """Arrearage Amount as a number; None where it isn't 8 digits."""
        return number_of(self.arrearage, 8)

    @arrearage_number.setter
    def arrearage_number(self, number: int) -> None:
        self.arrearage = digits_of("arrearage", number, 8)

    @property
    def exclusion_count_number(self) -> Optional[int]:
        """Number of Exclusions as a number; None where it isn't 1 digits."""
        return number_of(self.exclusion_count, 1)

    @exclusion_count_number.setter
    def exclusion_count_number(self, number: int) -> None:
        self.exclusion_count = digits_of("exclusion_count", number, 1)


@dataclasses.dataclass(repr=False)
class PageHeading(Record):
    """The heading of a case page (case page, 132 bytes)."""

    NAME: ClassVar[str] = "page_heading"
    WIDTH: ClassVar[int] = 132
    FIELDS: ClassVar[Tuple[Field, ...]] = (
        Field("mark", "Heading", 1, 5, "text"),
        Field("filler_1", "Filler", 6, 6, "filler"),
        Field("page_number", "Page Number", 7, 12, "number"),
        Field("filler_2", "Filler", 13, 132, "filler"),
    )

    # Heading, 1-5: CASES
    mark: str = ""
    # Filler, 6: a space
    filler_1: str = ""
    # Page Number, 7-12: six digits, the first page being 000001
    page_number: str = ""
    # Filler, 13-132: spaces
    filler_2: str = ""

    @property
    def page_number_number(self) -> Optional[int]:
        """Page Number as a number; None where it isn't 6 digits."""
        return number_of(self.page_number, 6)

    @page_number_number.setter
    def page_number_number(self, number: int) -> None:
        self.page_number = digits_of("page_number", number, 6)


@dataclasses.dataclass(repr=False)
class PageFoot(Record):
    """The foot of a case page (case page, 132 bytes)."""

    NAME: ClassVar[str] = "page_foot"
    WIDTH: ClassVar[int] = 132
    FIELDS: ClassVar[Tuple[Field, ...]] = (
        Field("mark", "Foot", 1, 5, "text"),
        Field("filler_1", "Filler", 6, 6, "filler"),
        Field("cases", "Cases on This Page", 7, 10, "number"),
        Field("filler_2", "Filler", 11, 132, "filler"),
    )

    # Foot, 1-5: TOTAL
    mark: str = ""
    # Filler, 6: a space
    filler_1: str = ""
    # Cases on This Page, 7-10: four digits, 0001 to 0058
    cases: str = ""
    # Filler, 11-132: spaces
    filler_2: str = ""

    @property
    def cases_number(self) -> Optional[int]:
        """Cases on This Page as a number; None where it isn't 4 digits."""
        return number_of(self.cases, 4)

    @cases_number.setter
    def cases_number(self, number: int) -> None:
        self.cases = digits_of("cases", number, 4)

# The layouts by their names.
LAYOUTS: Dict[str, Type[Record]] = {
    "row": Row,
    "detail": Detail,
    "control": Control,
    "reject": Reject,
    "reject_control": RejectControl,
    "rec": Rec,
    "rct": Rct,
    "contact": Contact,
    "line": Line,
    "total": Total,
    "page_line": PageLine,
    "page_heading": PageHeading,
    "page_foot": PageFoot,
}
