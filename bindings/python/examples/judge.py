"""A batch of two records, made, judged and shown: what a program that uses the module looks like."""
import fantanolive
from fantanolive.layouts import Detail, Reject, Row


def detail(name: str, first_name: str, dollars: int, kind: str) -> Detail:
    made = Detail(state="OH", ssn="123456789", last_name=name, first_name=first_name, transaction_type=kind, case_type="N")
    made.arrearage_number = dollars
    return made


def main() -> None:
    batch = fantanolive.make_batch("OH", [detail("SMITH", "JOHN", 25, "A"), detail("SMYTH", "", 100, "M")])
    try:
        applied = fantanolive.apply(b"", batch, "", 2007)
    except fantanolive.Refused as refused:
        raise SystemExit(str(refused))
    print(f"accepted {applied.counts.accepted}, rejected {applied.counts.rejected}")
    for number, verdict in enumerate(applied.verdicts, 1):
        for code in fantanolive.codes_of(verdict):
            text = fantanolive.code_text(code)
            if text is not None:
                print(f"record {number}: {code:02d} {text.wrong}: {text.mend}")
    for row in Row.read_all(applied.master):
        print(row)
    reject = Reject.read(applied.rejects[: Reject.WIDTH])
    print(f"codes {reject.error_codes}, stored name {reject.stored_name}")


main()
