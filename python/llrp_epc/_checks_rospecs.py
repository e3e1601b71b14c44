"""The checks of ROSpecs, of their events and of their reports: chapters 11, 13, 14 and 16 of LLRP 1.1."""
import time
from typing import List, Optional, Tuple

from ._bench import OWN, Bench, Fail, Link, Skip, check, has, require, status_of
from ._llrp import Llrp, Message
from ._messages import (
    EACH_TAGS,
    SELECTABLE,
    child,
    event_in,
    kind_of,
    notification,
    parameter,
    rospec,
    select_filter,
    start_trigger,
    tags_in,
)

# The states of a ROSpec (LLRP 1.1, section 11), and the type of event of a ROSpec (section 13).
DISABLED, INACTIVE, ACTIVE = 0, 1, 2
ROSPEC_EVENT = 2
# Of as many ROSpecs as a reader says that it has room for at most, that many and one are added.
MOST_ROSPECS = 200


def start(link: Link, added: Message) -> None:
    """Adds a ROSpec, and starts it."""
    number = added["ROSpecID"]
    link.done("ADD_ROSPEC", added)
    link.done("ENABLE_ROSPEC", ROSpecID=number)
    link.done("START_ROSPEC", ROSpecID=number)


def state(link: Link) -> Optional[int]:
    """Returns the state of this run's first ROSpec."""
    return link.states().get(OWN)


@check(
    11,
    "ADD_ROSPEC, ENABLE_ROSPEC, START_ROSPEC, STOP_ROSPEC, DISABLE_ROSPEC, DELETE_ROSPEC, with GET_ROSPECS after each",
    "the ROSpec is Disabled, Inactive, Active, Inactive, Disabled, and gone",
)
def states(bench: Bench) -> None:
    link = bench.open()
    link.done("ADD_ROSPEC", rospec(OWN))
    steps = (("", DISABLED), ("ENABLE_ROSPEC", INACTIVE), ("START_ROSPEC", ACTIVE), ("STOP_ROSPEC", INACTIVE), ("DISABLE_ROSPEC", DISABLED))
    for request, wanted in steps:
        if request:
            link.done(request, ROSpecID=OWN)
        found = state(link)
        require(found == wanted, f"after {request or 'ADD_ROSPEC'} its CurrentState is {found}, not {wanted}")
    link.done("DELETE_ROSPEC", ROSpecID=OWN)
    require(OWN not in link.states(), "it is listed after DELETE_ROSPEC")


@check(11, "START_ROSPEC of a ROSpec that is Disabled", "it is refused, and the ROSpec stays Disabled")
def start_disabled(bench: Bench) -> None:
    link = bench.open()
    link.done("ADD_ROSPEC", rospec(OWN))
    link.refused("START_ROSPEC of a Disabled one", "START_ROSPEC", ROSpecID=OWN)
    require(state(link) == DISABLED, "its state changed")


@check(11, "DISABLE_ROSPEC of a ROSpec that is Active", "it is Disabled, and reports no tags from a second later on")
def disable_active(bench: Bench) -> None:
    link = bench.open()
    start(link, rospec(OWN))
    require(state(link) == ACTIVE, "it did not become Active")
    link.done("DISABLE_ROSPEC", ROSpecID=OWN)
    require(state(link) == DISABLED, "it is not Disabled")
    link.during(1)
    require(not any(map(tags_in, link.during(1))), "it reports tags after it was disabled")


@check(
    11,
    "ENABLE_ROSPEC, START_ROSPEC, STOP_ROSPEC, DISABLE_ROSPEC and DELETE_ROSPEC with a ROSpecID that is not there",
    "each is refused",
    "sure; a refusal is any status but 0",
)
def unknown_rospec(bench: Bench) -> None:
    link = bench.open()
    for name in ("ENABLE_ROSPEC", "START_ROSPEC", "STOP_ROSPEC", "DISABLE_ROSPEC", "DELETE_ROSPEC"):
        link.refused(f"{name} of an unknown id", name, ROSpecID=OWN + 99)


@check(
    11,
    "ADD_ROSPEC with an id that is there, with the id 0, and with CurrentState 2",
    "each is refused and changes nothing",
    "sure; a refusal is any status but 0",
)
def add_refused(bench: Bench) -> None:
    link = bench.open()
    link.done("ADD_ROSPEC", rospec(OWN))
    link.refused("a second ROSpec of one id", "ADD_ROSPEC", rospec(OWN))
    link.refused("ROSpecID 0", "ADD_ROSPEC", rospec(0))
    link.refused("CurrentState 2", "ADD_ROSPEC", rospec(OWN + 1, state=ACTIVE))
    require(link.states() == {OWN: DISABLED}, f"the table is {link.states()}")


@check(
    11,
    "as many ROSpecs as the reader says that it has room for, and one more",
    "one of them is refused at the latest; SKIP where it says no number, or one above 200",
)
def max_rospecs(bench: Bench) -> None:
    link = bench.open()
    most = link.capability("LLRPCapabilities")["MaxNumROSpecs"]
    if not 0 < most <= MOST_ROSPECS:
        raise Skip(f"MaxNumROSpecs is {most}")
    for number in range(most):
        if status_of(link.ask("ADD_ROSPEC", rospec(OWN + number))) != 0:
            return
    link.refused(f"ROSpec {most + 1} of {most}", "ADD_ROSPEC", rospec(OWN + most))


@check(
    11,
    "ADD_ROSPEC, then CLOSE_CONNECTION, and GET_ROSPECS on the next connection",
    "the ROSpec is listed",
    "fairly",
)
def rospecs_kept(bench: Bench) -> None:
    link = bench.open()
    link.done("ADD_ROSPEC", rospec(OWN))
    link.done("CLOSE_CONNECTION")
    link.close()
    require(OWN in bench.open().states(), "it is not listed")


def becomes(link: Link, wanted: int, seconds: float) -> bool:
    """Returns whether this run's first ROSpec comes to a state within this time."""
    end = time.monotonic() + seconds
    while state(link) != wanted:
        if time.monotonic() > end:
            return False
        time.sleep(0.1)
    return True


@check(11, "ENABLE_ROSPEC of a ROSpec with the start trigger Immediate", "it becomes Active")
def immediate(bench: Bench) -> None:
    link = bench.open()
    link.done("ADD_ROSPEC", rospec(OWN, start_trigger(1)))
    link.done("ENABLE_ROSPEC", ROSpecID=OWN)
    require(becomes(link, ACTIVE, bench.seconds), "it did not become Active")


@check(11, "START_ROSPEC of a ROSpec with a stop trigger of half a second", "it is Active, and Inactive within two seconds")
def duration(bench: Bench) -> None:
    link = bench.open()
    start(link, rospec(OWN, stop=(1, 500)))
    require(state(link) == ACTIVE, "it did not become Active")
    require(becomes(link, INACTIVE, 2), "it is not Inactive after two seconds")


@check(
    11,
    "ENABLE_ROSPEC of a ROSpec that is to start each second, and to stop after 0.2",
    "within four seconds it is Active twice; SKIP where ADD_ROSPEC is refused",
    "sure; whether a reader may refuse the trigger: not sure",
)
def periodic(bench: Bench) -> None:
    link = bench.open()
    link.configure(notification(ROSPEC_EVENT, True))
    link.accepted("a periodic start trigger", "ADD_ROSPEC", rospec(OWN, start_trigger(2, 1000), stop=(1, 200)))
    link.done("ENABLE_ROSPEC", ROSpecID=OWN)
    for at in ("first", "second"):
        link.wait(is_start, f"the {at} start of the ROSpec", 4)


def is_start(message: Message) -> bool:
    """Returns whether a message says that this run's first ROSpec started."""
    event = event_in(message, "ROSpecEvent")
    return event is not None and (event["EventType"], event["ROSpecID"]) == (0, OWN)


# ---- events


@check(
    14,
    "SET_READER_CONFIG with ROSpecEvents on, then START_ROSPEC and STOP_ROSPEC",
    "a ROSpecEvent for the start and one for the end, each with the ROSpec's id",
)
def rospec_events(bench: Bench) -> None:
    link = bench.open()
    link.configure(notification(ROSPEC_EVENT, True))
    link.done("ADD_ROSPEC", rospec(OWN))
    link.done("ENABLE_ROSPEC", ROSpecID=OWN)
    for name, wanted in (("START_ROSPEC", 0), ("STOP_ROSPEC", 1)):
        link.done(name, ROSpecID=OWN)
        event = link.event("ROSpecEvent", f"ROSpecEvent after {name}")
        require((event["EventType"], event["ROSpecID"]) == (wanted, OWN), f"after {name} EventType {event['EventType']} of {event['ROSpecID']}")


@check(14, "SET_READER_CONFIG with ROSpecEvents off, then START_ROSPEC and STOP_ROSPEC", "no ROSpecEvent")
def events_off(bench: Bench) -> None:
    link = bench.open()
    link.configure(notification(ROSPEC_EVENT, False))
    start(link, rospec(OWN))
    link.done("STOP_ROSPEC", ROSpecID=OWN)
    link.states()
    require(not any(event_in(one, "ROSpecEvent") for one in link.others), "a ROSpecEvent came")


# ---- reports


def report(link: Link) -> Message:
    """Returns the next report with a tag; skips the check where no tag is seen."""
    try:
        return link.wait(lambda it: bool(tags_in(it)), "a tag", link.bench.tags)
    except Fail:
        if link.is_closed:
            raise
        raise Skip(f"no tag was seen in {link.bench.tags:g} s") from None


@check(
    14,
    "GET_REPORT where there is nothing to report",
    "RO_ACCESS_REPORT; NOTE where none comes",
    "fairly",
)
def get_report(bench: Bench) -> None:
    link = bench.open()
    link.send("GET_REPORT")
    bench.should("RO_ACCESS_REPORT" in map(kind_of, link.during(1)), "no RO_ACCESS_REPORT came in a second")


def selected_in(tag: Message) -> List[str]:
    """Returns what a TagReportData has of that which may be selected."""
    found = {one["parameter"].replace("TimestampUTC", "Timestamp").replace("TimestampUptime", "Timestamp") for one in tag["parameters"]}
    return sorted(found & set(SELECTABLE))


@check(
    14,
    "two ROSpecs, one after the other, that select other parameters",
    "each report of a tag has what is selected, and nothing else of it; SKIP where no tag is seen",
)
def selector(bench: Bench) -> None:
    link = bench.open()
    for selected in (("AntennaID", "PeakRSSI"), ("FirstSeenTimestamp", "ROSpecID", "TagSeenCount")):
        start(link, rospec(OWN, selected=selected))
        found = report(link)
        link.done("DELETE_ROSPEC", ROSpecID=OWN)
        link.others.clear()
        for tag in tags_in(found):
            require(selected_in(tag) == sorted(selected), f"selected {sorted(selected)}, reported {selected_in(tag)}")


@check(
    14,
    "a ROSpec with ROReportTrigger 0, and GET_REPORT after a while",
    "no report before GET_REPORT, and the tags after it; SKIP where no tag is seen",
)
def held_reports(bench: Bench) -> None:
    link = bench.open()
    start(link, rospec(OWN, trigger=(0, 0)))
    require(not any(map(tags_in, link.during(bench.tags))), "a report came before GET_REPORT")
    link.send("GET_REPORT")
    report(link)


@check(
    14,
    "a ROSpec with ROReportTrigger 2 and N 0, and STOP_ROSPEC after a while",
    "no report before the ROSpec ends, and the tags then; SKIP where no tag is seen",
)
def report_at_end(bench: Bench) -> None:
    link = bench.open()
    start(link, rospec(OWN, trigger=(EACH_TAGS, 0)))
    require(not any(map(tags_in, link.during(bench.tags))), "a report came before the ROSpec ended")
    link.done("STOP_ROSPEC", ROSpecID=OWN)
    report(link)


@check(
    14,
    "EventsAndReports with HoldEventsAndReportsUponReconnect, a ROSpec that is started, a new connection, then ENABLE_EVENTS_AND_REPORTS",
    "no report on the new connection before it; SKIP where SupportsEventAndReportHolding is 0, or where no tag is seen",
)
def held_over_reconnect(bench: Bench) -> None:
    link = bench.open()
    if not link.capability("LLRPCapabilities")["SupportsEventAndReportHolding"]:
        raise Skip("SupportsEventAndReportHolding is 0")
    link.configure(parameter("EventsAndReports", HoldEventsAndReportsUponReconnect=1))
    try:
        start(link, rospec(OWN))
        report(link)
        link.done("CLOSE_CONNECTION")
        link.close()
        link = bench.open()
        require(not any(map(tags_in, link.during(bench.tags))), "a report came before ENABLE_EVENTS_AND_REPORTS")
        link.send("ENABLE_EVENTS_AND_REPORTS")
        report(link)
    finally:
        link.configure(parameter("EventsAndReports", HoldEventsAndReportsUponReconnect=0))


# ---- filters


def epc_of(llrp: Llrp, tag: Message) -> bytes:
    """Returns the octets of a tag's EPC."""
    word = child(tag, "EPC-96")
    return llrp.word_of_text(word["EPC"]) if word else bytes.fromhex(has(tag, "EPCData")["bits"])


def fronts(link: Link, filters: Tuple[Message, ...]) -> List[bytes]:
    """Runs a ROSpec with these filters, and returns the first two octets of the EPC of each tag that is reported."""
    start(link, rospec(OWN, filters=filters))
    came = link.during(link.bench.tags)
    link.done("DELETE_ROSPEC", ROSpecID=OWN)
    link.others.clear()
    return [epc_of(link.bench.llrp, tag)[:2] for message in came for tag in tags_in(message)]


@check(
    16,
    "a ROSpec whose C1G2Filter selects the first 16 bits of a tag's EPC, then one that selects the complement of these bits",
    "reports of tags with these first bits alone; SKIP where MaxNumSelectFiltersPerQuery is 0, or where no tag is seen",
    "fairly",
)
def c1g2_filter(bench: Bench) -> None:
    link = bench.open()
    if link.capability("C1G2LLRPCapabilities")["MaxNumSelectFiltersPerQuery"] == 0:
        raise Skip("MaxNumSelectFiltersPerQuery is 0")
    seen = fronts(link, ())
    if not seen:
        raise Skip(f"no tag was seen in {bench.tags:g} s")
    for front in (seen[0], bytes(255 - octet for octet in seen[0])):
        found = set(fronts(link, (select_filter(front),)))
        require(found <= {front}, f"selected {front.hex()}, reported {', '.join(sorted(one.hex() for one in found))}")
