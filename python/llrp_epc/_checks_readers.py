"""The checks of a reader's capabilities and of its configuration: chapters 10, 13 and 14 of LLRP 1.1."""
from typing import List

from ._bench import Bench, check, has, require
from ._llrp import Message
from ._messages import child, children, keepalive_spec

# The parts of the capabilities, for RequestedData 1 to 4 (LLRP 1.1, section 10).
PARTS = ("GeneralDeviceCapabilities", "LLRPCapabilities", "RegulatoryCapabilities", "C1G2LLRPCapabilities")
# RequestedData of GET_READER_CONFIG (section 13).
ANTENNA_PROPERTIES, KEEPALIVE = 2, 8


@check(
    10,
    "GET_READER_CAPABILITIES with RequestedData 0 to 4",
    "all parts for 0, and for 1 to 4 the part that is asked for",
    "sure; that there are no others is not checked",
)
def capabilities(bench: Bench) -> None:
    link = bench.open()
    for number, wanted in enumerate([PARTS, *((part,) for part in PARTS)]):
        message = link.done("GET_READER_CAPABILITIES", RequestedData=number)
        for part in wanted:
            require(child(message, part) is not None, f"RequestedData {number}: no {part}")


def bands(bench: Bench) -> List[Message]:
    """Returns the UHFBandCapabilities."""
    return children(bench.open().capability("RegulatoryCapabilities"), "UHFBandCapabilities")


def has_channels(table: Message) -> bool:
    """Returns whether a table of frequencies has one at least, and as many numbers of four octets as its Count says."""
    return bool(0 < table["Count"] == len(table["octets"]) / 8)


@check(
    10,
    "GET_READER_CAPABILITIES",
    "where Hopping is 1 each FrequencyHopTable, with an id of its own, and where it is 0 the FixedFrequencyTable has as many frequencies as its "
    "count says, and one at least",
)
def hop_tables(bench: Bench) -> None:
    for band in bands(bench):
        information = has(band, "FrequencyInformation")
        kind = "FrequencyHopTable" if information["Hopping"] else "FixedFrequencyTable"
        tables = children(information, kind)
        require(bool(tables), f"Hopping {information['Hopping']}, and no {kind}")
        require(all(map(has_channels, tables)), f"the frequencies of a {kind} are not as many as its count says")
        names = [one.get("HopTableID") for one in tables]
        require(len(set(names)) == len(names), f"HopTableIDs {names}")


@check(
    10,
    "GET_READER_CAPABILITIES",
    "each index of the table of transmit powers is there once; NOTE where the powers do not rise with it",
    "sure; that powers rise: not sure",
)
def power_table(bench: Bench) -> None:
    for band in bands(bench):
        rows = {one["Index"]: one["TransmitPowerValue"] for one in children(band, "TransmitPowerLevelTableEntry")}
        require(len(rows) == len(children(band, "TransmitPowerLevelTableEntry")), "an index is there twice")
        powers = [power for _, power in sorted(rows.items())]
        bench.should(powers == sorted(powers), f"the powers do not rise with the index: {powers}")


@check(
    13,
    "GET_READER_CONFIG for AntennaProperties, with AntennaID 0",
    "NOTE where there are not AntennaProperties of as many antennas, from 1 on, as the capabilities say",
    "fairly",
)
def antennas(bench: Bench) -> None:
    link = bench.open()
    number = link.capability("GeneralDeviceCapabilities")["MaxNumberOfAntennaSupported"]
    found = sorted(one["AntennaID"] for one in children(link.configuration(ANTENNA_PROPERTIES), "AntennaProperties"))
    bench.should(found == list(range(1, number + 1)), f"AntennaProperties of {found}, and {number} antennas in the capabilities")


@check(13, "SET_READER_CONFIG with a KeepaliveSpec of 30 seconds, then GET_READER_CONFIG for it", "that KeepaliveSpec")
def config_back(bench: Bench) -> None:
    link = bench.open()
    link.configure(keepalive_spec(30000))
    found = child(link.configuration(KEEPALIVE), "KeepaliveSpec")
    link.configure(keepalive_spec(0))
    require(found is not None, "GET_READER_CONFIG for KeepaliveSpec gives none")
    require(found == keepalive_spec(30000), f"it gives {found}")


@check(
    14,
    "GET_READER_CAPABILITIES",
    "events have UTCTimestamp if the reader says that it has a UTC clock, and else Uptime",
)
def clock(bench: Bench) -> None:
    link = bench.open()
    wanted = "UTCTimestamp" if link.capability("GeneralDeviceCapabilities")["HasUTCClockCapability"] else "Uptime"
    has(link.greeting, "ReaderEventNotificationData", wanted)
