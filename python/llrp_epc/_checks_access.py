"""The checks of AccessSpecs: chapter 12 of LLRP 1.1."""
from typing import Optional

from ._bench import OWN, Bench, Link, check, require
from ._checks_rospecs import report, start
from ._messages import child, read_access, rospec, tags_in

# The memory bank of the TID, and the words of it that every tag has (EPC UHF Gen2).
TID, TID_WORDS = 2, 2
# The OpSpecID of the read, and the result of one that went well (LLRP 1.1, section 16).
READ, SUCCESS = 7, 0


def add(link: Link) -> None:
    """Adds an AccessSpec that reads the TID; skips the check where the reader refuses it."""
    link.accepted("AccessSpecs", "ADD_ACCESSSPEC", read_access(OWN, READ, TID, TID_WORDS))


@check(
    12,
    "ADD_ACCESSSPEC, ENABLE_ACCESSSPEC, DISABLE_ACCESSSPEC, DELETE_ACCESSSPEC, with GET_ACCESSSPECS after each",
    "the AccessSpec is Disabled, Active, Disabled, and gone; SKIP where ADD_ACCESSSPEC is refused",
)
def access_specs(bench: Bench) -> None:
    link = bench.open()
    add(link)
    for request, wanted in (("", 0), ("ENABLE_ACCESSSPEC", 1), ("DISABLE_ACCESSSPEC", 0)):
        if request:
            link.done(request, AccessSpecID=OWN)
        found: Optional[int] = link.access_states().get(OWN)
        require(found == wanted, f"after {request or 'ADD_ACCESSSPEC'} its CurrentState is {found}, not {wanted}")
    link.done("DELETE_ACCESSSPEC", AccessSpecID=OWN)
    require(OWN not in link.access_states(), "it is listed after DELETE_ACCESSSPEC")


@check(
    12,
    "ENABLE_ACCESSSPEC, DISABLE_ACCESSSPEC and DELETE_ACCESSSPEC with an AccessSpecID that is not there",
    "each is refused",
    "sure; a refusal is any status but 0",
)
def unknown_accessspec(bench: Bench) -> None:
    link = bench.open()
    for name in ("ENABLE_ACCESSSPEC", "DISABLE_ACCESSSPEC", "DELETE_ACCESSSPEC"):
        link.refused(f"{name} of an unknown id", name, AccessSpecID=OWN + 99)


@check(
    12,
    "an AccessSpec that reads two words of the TID, and a ROSpec that is started",
    "a tag's report has the result of the read, with its OpSpecID, and two words where it went well; SKIP where ADD_ACCESSSPEC is refused, or where "
    "no tag is seen",
)
def tid_read(bench: Bench) -> None:
    link = bench.open()
    add(link)
    link.done("ENABLE_ACCESSSPEC", AccessSpecID=OWN)
    start(link, rospec(OWN))
    found = report(link)
    results = [one for tag in tags_in(found) if (one := child(tag, "C1G2ReadOpSpecResult"))]
    require(bool(results), "a tag was reported without the result of the read")
    for one in results:
        require(one["OpSpecID"] == READ, f"the result has the OpSpecID {one['OpSpecID']}")
        require(one["Result"] != SUCCESS or len(one["words"]) == TID_WORDS, f"words {one['words']}")
