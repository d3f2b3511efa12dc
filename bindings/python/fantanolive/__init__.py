"""Fantanolive: a state's copy of the federal offset case master, through the proved library libfantanolive.so.

The functions here take bytes-like files and return new bytes; those of fantanolive.calls have the same names and work in the
caller's buffers, without copies. Text in files is EBCDIC (to_ebcdic, to_ascii). A refusal is raised as Refused, with number and
words. FANTANOLIVE_LIBRARY may name the library's path."""
from . import calls, layouts
from ._header import CONTACT, KEY, LINE, LOCAL_CODE, MAX_CONTACTS, MAX_RECORDS, MAX_ROWS, NO_PLACE, RECORD, ROW
from ._header import VERSION as __version__
from ._header import Refusal
from ._library import version as library_version
from .calls import ContactCounts, Counts, JournaledCounts, Totals, totals
from .forms import (
    Applied,
    FoundMany,
    Journaled,
    Posted,
    Updated,
    add_cents,
    apply,
    apply_journaled,
    contacts_codes,
    contacts_update,
    find,
    find_many,
    make_batch,
    merge,
    pages,
    post,
    reconcile,
    records_to,
    take_back,
    to_ascii,
    to_ebcdic,
)
from .words import Refused, Text, code_text, codes_of, refusal_text

__all__ = [
    "Applied", "CONTACT", "ContactCounts", "Counts", "FoundMany", "Journaled", "JournaledCounts", "KEY", "LINE", "LOCAL_CODE",
    "MAX_CONTACTS", "MAX_RECORDS", "MAX_ROWS", "NO_PLACE", "Posted", "RECORD", "ROW", "Refusal", "Refused", "Text", "Totals", "Updated",
    "__version__", "add_cents", "apply", "apply_journaled", "calls", "code_text", "codes_of", "contacts_codes",
    "contacts_update", "find", "find_many", "layouts", "library_version", "make_batch", "merge", "pages", "post", "reconcile", "records_to", "refusal_text", "take_back",
    "to_ascii", "to_ebcdic", "totals",
]
