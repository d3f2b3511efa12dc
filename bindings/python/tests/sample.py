"""Files for the tests, in EBCDIC by Python's own code page 037."""


def ebcdic(text):
    return text.encode("cp037")


def detail(name, dollars, kind, first="", ssn="123456789", case_type="N", local="   "):
    return ebcdic(f"OH{local}{ssn}{'':15}{name:20}{first:15}{dollars:08d}{kind}{case_type}{'':171}")


def control(count, amount, state="OH", mark="CTL"):
    return ebcdic(f"{state}{mark}{0:09d}{count:09d}{0:011d}{amount:011d}{'':200}")


# The example of document 01: A for SMITH JOHN of 25 dollars, M for SMYTH of 100.
PAPER_BATCH = detail("SMITH", 25, "A", "JOHN") + detail("SMYTH", 100, "M") + control(2, 125)


def row(ssn="123456789", dollars=25, end=" 00  "):
    fields = ebcdic(f"OH{ssn}N000{'':15}{'SMITH':20}{'JOHN':15}{dollars:08d}{'':5}{0:012d}{'':104}")
    return fields + b"\0" + ebcdic(end)


def line(collection=0, adjustment=0, ssn="123456789"):
    return ebcdic(f"OH   {ssn}{'':61}{collection:011d}{adjustment:011d}{'':9}N{'':133}")


def total(adjustments, collections):
    return ebcdic(f"OH   TOTAL    {'':20}{adjustments:015d}{collections:015d}{'':176}")


def contact(code, phone="(614) 555-1212"):
    name, street, city = "BUREAU OF CHILD SUPPORT", "30 EAST BROAD STREET", "COLUMBUS, OH 43215"
    return ebcdic(f"OH{code}{phone}{'':22}{name:35}{street:35}{'':70}{city:35}{'':4}")
