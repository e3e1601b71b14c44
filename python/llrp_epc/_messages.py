"""Messages as dicts, as docs/json.md says: what is in them, and how those that a client sends are made."""
from typing import Any, Dict, List, Optional, Tuple

from ._llrp import Message

# The parameters that a ROSpec selects for its reports of tags, each by a field Enable.. of TagReportContentSelector (LLRP 1.1, section 14).
SELECTABLE = (
    "ROSpecID",
    "SpecIndex",
    "InventoryParameterSpecID",
    "AntennaID",
    "ChannelIndex",
    "PeakRSSI",
    "FirstSeenTimestamp",
    "LastSeenTimestamp",
    "TagSeenCount",
    "AccessSpecID",
)
# C1G2 by its number in the field ProtocolID (section 16), and a ROReportTrigger: at the end, or each N tags (section 14).
C1G2, EACH_TAGS = 1, 2


def parameter(name: str, *children: Message, **fields: Any) -> Message:
    """Returns a parameter with these fields and these parameters in it."""
    made: Message = {"parameter": name, **fields}
    return {**made, "parameters": list(children)} if children else made


def message_of(name: str, version: int, number: int, children: Tuple[Message, ...] = (), fields: Optional[Dict[str, Any]] = None) -> Message:
    """Returns a message of this version and id, with these parameters and fields."""
    made: Message = {"message": name, "version": version, "id": number, **(fields or {})}
    return {**made, "parameters": list(children)} if children else made


def children(item: Message, name: str) -> List[Message]:
    """Returns the parameters of this name in a message or parameter."""
    return [one for one in item.get("parameters", []) if one["parameter"] == name]


def child(item: Message, *path: str) -> Optional[Message]:
    """Returns the first parameter of the path's first name, in it the first of the next name, and so on; None where one is missing."""
    for name in path:
        found = children(item, name)
        if not found:
            return None
        item = found[0]
    return item


def kind_of(item: Message) -> str:
    """Returns the name of a message or parameter; "" for a frame that is no message."""
    return str(item.get("message") or item.get("parameter") or "")


def event_in(message: Message, name: str) -> Optional[Message]:
    """Returns the event of this name in a READER_EVENT_NOTIFICATION; None in any other message."""
    return child(message, "ReaderEventNotificationData", name) if kind_of(message) == "READER_EVENT_NOTIFICATION" else None


def tags_in(message: Message) -> List[Message]:
    """Returns the TagReportData of an RO_ACCESS_REPORT; none of any other message."""
    return children(message, "TagReportData") if kind_of(message) == "RO_ACCESS_REPORT" else []


def start_trigger(kind: int, period: int = 0) -> Message:
    """Returns a ROSpecStartTrigger: 0 by request, 1 immediate, 2 each `period` milliseconds (section 11)."""
    periods = [parameter("PeriodicTriggerValue", Offset=0, Period=period)] if period else []
    return parameter("ROSpecStartTrigger", *periods, ROSpecStartTriggerType=kind)


def antenna_specs(filters: Tuple[Message, ...]) -> List[Message]:
    """Returns the AntennaConfiguration with these C1G2Filters for all antennas; none where there are no filters."""
    command = parameter("C1G2InventoryCommand", *filters, TagInventoryStateAware=0)
    return [parameter("AntennaConfiguration", command, AntennaID=0)] if filters else []


def rospec(
    number: int,
    start: Optional[Message] = None,
    stop: Tuple[int, int] = (0, 0),
    state: int = 0,
    selected: Tuple[str, ...] = (),
    trigger: Tuple[int, int] = (EACH_TAGS, 1),
    filters: Tuple[Message, ...] = (),
) -> Message:
    """Returns a ROSpec of all antennas, which reports each tag by itself.

    `stop` is the type of its stop trigger and its milliseconds, `trigger` its ROReportTrigger and N."""
    boundary = parameter(
        "ROBoundarySpec",
        start or start_trigger(0),
        parameter("ROSpecStopTrigger", ROSpecStopTriggerType=stop[0], DurationTriggerValue=stop[1]),
    )
    inventory = parameter("InventoryParameterSpec", *antenna_specs(filters), InventoryParameterSpecID=1, ProtocolID=C1G2)
    antennas = parameter("AISpec", parameter("AISpecStopTrigger", AISpecStopTriggerType=0, DurationTrigger=0), inventory, words=[0])
    selector = parameter("TagReportContentSelector", **{f"Enable{name}": int(name in selected) for name in SELECTABLE})
    report = parameter("ROReportSpec", selector, ROReportTrigger=trigger[0], N=trigger[1])
    return parameter("ROSpec", boundary, antennas, report, ROSpecID=number, Priority=0, CurrentState=state)


def select_filter(octets: bytes) -> Message:
    """Returns the C1G2Filter that selects the tags whose EPC begins with these octets, and no others (section 16)."""
    mask = parameter("C1G2TagInventoryMask", MB=1, Pointer=32, Count=8 * len(octets), octets=octets.hex())
    action = parameter("C1G2TagInventoryStateUnawareFilterAction", Action=0)
    return parameter("C1G2Filter", mask, action, T=1)


def read_access(number: int, operation: int, bank: int, words: int) -> Message:
    """Returns an AccessSpec that reads so many words of a bank of each tag, from the first word on, and reports them with the tags (section 12)."""
    target = parameter("C1G2TargetTag", MB=1, Match=1, Pointer=32, Count=0, octets="0000")
    read = parameter("C1G2Read", OpSpecID=operation, AccessPassword=0, MB=bank, WordPointer=0, WordCount=words)
    return parameter(
        "AccessSpec",
        parameter("AccessSpecStopTrigger", AccessSpecStopTrigger=0, OperationCountValue=0),
        parameter("AccessCommand", parameter("C1G2TagSpec", target), read),
        parameter("AccessReportSpec", AccessReportTrigger=0),
        AccessSpecID=number,
        AntennaID=0,
        ProtocolID=C1G2,
        CurrentState=0,
        ROSpecID=0,
    )


def keepalive_spec(period: int) -> Message:
    """Returns the KeepaliveSpec for a KEEPALIVE each `period` milliseconds; 0 switches them off (section 13)."""
    return parameter("KeepaliveSpec", KeepaliveTriggerType=int(period > 0), PeriodicTriggerValue=period)


def notification(event: int, is_on: bool) -> Message:
    """Returns the ReaderEventNotificationSpec that switches events of a type on or off (section 13)."""
    state = parameter("EventNotificationState", EventType=event, NotificationState=int(is_on))
    return parameter("ReaderEventNotificationSpec", state)
