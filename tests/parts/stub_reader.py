"""A reader that is right in what llrp_epc.conform asks, or has one mistake: what the checks are tried on. It serves in a thread."""
import contextlib
import select
import socket
import threading
import time

# Each mistake, the check that is meant for it, and that check's verdict.
MISTAKES = {
    "no_event": ("connection_event", "FAIL"),
    "second_welcome": ("second_client", "FAIL"),
    "first_untold": ("second_client", "NOTE"),
    "drops_second": ("two_in_one", "FAIL"),
    "wrong_id": ("two_in_one", "FAIL"),
    "piece_is_frame": ("in_pieces", "FAIL"),
    "version_two_at_first": ("supported_version", "FAIL"),
    "answers_in_one": ("set_version", "FAIL"),
    "any_version_set": ("unknown_version", "FAIL"),
    "closes_on_unknown": ("unknown_message", "FAIL"),
    "custom_is_wrong": ("unknown_custom", "FAIL"),
    "any_version": ("foreign_version", "FAIL"),
    "wrong_place": ("error_places", "FAIL"),
    "keepalive_goes_on": ("keepalive", "FAIL"),
    "hangs_without_acks": ("missing_acks", "FAIL"),
    "stays_open": ("goodbye", "NOTE"),
    "no_regulatory": ("capabilities", "FAIL"),
    "short_table": ("hop_tables", "FAIL"),
    "index_twice": ("power_table", "FAIL"),
    "powers_fall": ("power_table", "NOTE"),
    "one_antenna": ("antennas", "NOTE"),
    "forgets_configuration": ("config_back", "FAIL"),
    "uptime": ("clock", "FAIL"),
    "enabled_is_active": ("states", "FAIL"),
    "starts_disabled": ("start_disabled", "FAIL"),
    "disabled_goes_on": ("disable_active", "FAIL"),
    "unknown_deleted": ("unknown_rospec", "FAIL"),
    "id_twice": ("add_refused", "FAIL"),
    "no_bound": ("max_rospecs", "FAIL"),
    "forgets_rospecs": ("rospecs_kept", "FAIL"),
    "never_immediate": ("immediate", "FAIL"),
    "no_duration": ("duration", "FAIL"),
    "starts_once": ("periodic", "FAIL"),
    "no_rospec_event": ("rospec_events", "FAIL"),
    "events_always": ("events_off", "FAIL"),
    "no_empty_report": ("get_report", "NOTE"),
    "reports_all": ("selector", "FAIL"),
    "reports_unasked": ("held_reports", "FAIL"),
    "reports_early": ("report_at_end", "FAIL"),
    "never_holds": ("held_over_reconnect", "FAIL"),
    "ignores_filters": ("c1g2_filter", "FAIL"),
    "access_disabled": ("access_specs", "FAIL"),
    "unknown_access_deleted": ("unknown_accessspec", "FAIL"),
    "wrong_operation": ("tid_read", "FAIL"),
    # (these two in each response)
    "reserved_bit": ("states", "FAIL"),
    "latin1_text": ("capabilities", "FAIL"),
}
# One that is right, but answers late.
LATE, LATE_SECONDS = "late", 0.1
# The states of a ROSpec, and how often a tag is seen, in seconds.
DISABLED, INACTIVE, ACTIVE = 0, 1, 2
SEEN = 0.1
# What it sees, with the front of each EPC's octets, and how many ROSpecs it has room for.
TAGS = (("urn:epc:tag:gid-96:1.2.3", "3500"), ("urn:epc:tag:sgtin-96:3.0614141.812345.6789", "3074"))
ROOM = 6


class Row:
    """A ROSpec of the table: when it began, when it is seen next and when it starts again, with what it holds for a report."""

    def __init__(self, spec):
        self.spec, self.state = spec, DISABLED
        self.began = self.seen = 0.0
        self.again = None
        self.held = []


class Reader:
    """A reader with a mistake, or with none (""); `with` runs it."""

    def __init__(self, mistake=""):
        from llrp_epc import Llrp, _messages

        self.mistake, self.llrp, self.it, self.number = mistake, Llrp(), _messages, 0
        self.listener = socket.create_server(("127.0.0.1", 0))
        self.port = self.listener.getsockname()[1]
        self.table, self.access, self.is_ended = {}, {}, False
        self.reset()
        self.thread = threading.Thread(target=self.serve, daemon=True)

    def __enter__(self):
        self.thread.start()
        return self

    def __exit__(self, *_):
        self.is_ended = True
        self.thread.join(30)
        self.listener.close()

    def reset(self):
        """Sets the configuration as it is at first."""
        self.period, self.due, self.unanswered, self.has_events, self.holds = 0.0, None, 0, False, False

    # ---- connections

    def serve(self):
        """Serves clients one after another."""
        while not self.is_ended:
            if select.select([self.listener], [], [], 0.05)[0]:
                client, _ = self.listener.accept()
                with client:
                    self.serve_client(client)
            self.tick(None)

    def serve_client(self, client):
        """Serves a client until it or the reader ends the connection."""
        self.client, self.buffer, self.version, self.is_held, self.is_open, self.extra = client, b"", 1, self.holds, True, []
        if self.mistake == "forgets_rospecs":
            self.table = {}
        with contextlib.suppress(OSError):
            if self.mistake != "no_event":
                self.event(self.attempt(0))
            while self.is_open and not self.is_ended:
                self.turn()
        for second in self.extra:
            second.close()
        self.due = None
        if self.mistake == "never_holds":
            self.holds = False

    def attempt(self, status):
        return self.it.parameter("ConnectionAttemptEvent", Status=status)

    def turn(self):
        """Does what is due, and takes what comes within a moment."""
        ready, _, _ = select.select([self.client, self.listener], [], [], 0.02)
        self.tick(time.monotonic())
        if self.listener in ready:
            self.refuse(self.listener.accept()[0])
        if self.client in ready:
            piece = self.client.recv(65536)
            self.is_open = bool(piece)
            self.buffer = piece if self.mistake == "piece_is_frame" else self.buffer + piece
            self.take_frames()

    def refuse(self, second):
        """Tells a second client that there is one, and the first that another tried."""
        is_wrong = self.mistake == "second_welcome"
        first, self.client = self.client, second
        self.event(self.attempt(0 if is_wrong else 2))
        self.client = first
        if is_wrong:
            self.extra.append(second)
            return
        second.close()
        if self.mistake != "first_untold":
            self.event(self.attempt(4))

    def take_frames(self):
        """Takes the frames that are whole."""
        while self.is_open and len(self.buffer) >= 10 and len(self.buffer) >= (length := int.from_bytes(self.buffer[2:6], "big")):
            frame, self.buffer = self.buffer[:length], self.buffer[length:]
            if not (self.mistake == "hangs_without_acks" and self.unanswered > 2):
                self.take(frame)
            if self.mistake == "drops_second":
                self.buffer = b""

    # ---- what is sent

    def send(self, name, number, *parameters, version=None, **fields):
        octets = bytearray(self.llrp.pack([self.it.message_of(name, version or self.version, number, parameters, fields)], all=True))
        if self.mistake == "reserved_bit" and name.endswith("_RESPONSE"):
            octets[0] |= 0x80
        if self.mistake == "latin1_text" and (at := octets.find(bytes.fromhex("011F0008"))) >= 0:
            # (a status text of one octet, which is no UTF-8)
            octets[at + 2 : at + 8] = bytes.fromhex("0009") + octets[at + 4 : at + 6] + bytes.fromhex("0001")
            octets[at + 8 : at + 8] = b"\xfc"
            octets[2:6] = len(octets).to_bytes(4, "big")
        self.client.sendall(octets)

    def own(self, name, *parameters):
        """Sends a message of the reader's own."""
        self.number += 1
        self.send(name, self.number, *parameters)

    def event(self, event):
        clock = self.it.parameter("Uptime" if self.mistake == "uptime" else "UTCTimestamp", Microseconds=int(time.time() * 1e6))
        self.own("READER_EVENT_NOTIFICATION", self.it.parameter("ReaderEventNotificationData", clock, event))

    def status(self, code=0, *children):
        return self.it.parameter("LLRPStatus", *children, StatusCode=code, text="")

    def respond(self, name, number, is_right):
        """Sends a response with status 0 or M_FieldError."""
        self.send(f"{name}_RESPONSE", number, self.status(0 if is_right else 101))

    def error(self, number, code):
        self.send("ERROR_MESSAGE", number, self.status(code))

    # ---- what is due

    def tick(self, now):
        """Does what is due at a moment; without a client nothing is sent."""
        if now is None:
            return
        if self.due and now >= self.due:
            self.due, self.unanswered = now + self.period, self.unanswered + 1
            self.own("KEEPALIVE")
        for number, row in list(self.table.items()):
            self.tick_row(number, row, now)

    def tick_row(self, number, row, now):
        """Does what is due of a ROSpec."""
        if row.again and now >= row.again and row.state == INACTIVE:
            row.again = None if self.mistake == "starts_once" else now + self.trigger(row)["PeriodicTriggerValue"] / 1000
            self.change(number, ACTIVE)
        stop = self.it.child(row.spec, "ROBoundarySpec", "ROSpecStopTrigger")
        is_over = stop["ROSpecStopTriggerType"] == 1 and now >= row.began + stop["DurationTriggerValue"] / 1000
        if row.state == ACTIVE and is_over and self.mistake != "no_duration":
            self.change(number, INACTIVE)
        elif (row.state == ACTIVE or (self.mistake == "disabled_goes_on" and row.began)) and now >= row.seen + SEEN:
            row.seen = now
            self.see(row)

    def trigger(self, row):
        """The start trigger of a ROSpec, with its period."""
        found = self.it.child(row.spec, "ROBoundarySpec", "ROSpecStartTrigger")
        periods = self.it.children(found, "PeriodicTriggerValue")
        return {"type": found["ROSpecStartTriggerType"], "PeriodicTriggerValue": periods[0]["Period"] if periods else 0}

    def see(self, row):
        """Sees the tags that a ROSpec's filters select, and reports them or holds them."""
        found = [self.tag(row, text) for text, front in TAGS if self.is_selected(row, front)]
        report = self.it.child(row.spec, "ROReportSpec")
        if report["ROReportTrigger"]:
            is_now = report["N"] > 0 or self.mistake == "reports_early"
        else:
            is_now = self.mistake == "reports_unasked"
        if not (is_now and found):
            row.held += found
        elif not self.is_held:
            self.own("RO_ACCESS_REPORT", *found)

    def is_selected(self, row, front):
        configuration = self.it.child(row.spec, "AISpec", "InventoryParameterSpec", "AntennaConfiguration", "C1G2InventoryCommand", "C1G2Filter")
        if configuration is None or self.mistake == "ignores_filters":
            return True
        return self.it.child(configuration, "C1G2TagInventoryMask")["octets"] == front

    def tag(self, row, text):
        """The TagReportData of a tag, with what is selected, and what AccessSpecs read."""
        selected = self.it.child(row.spec, "ROReportSpec", "TagReportContentSelector")
        every = (("ROSpecID", "ROSpecID", 1), ("AntennaID", "AntennaID", 1), ("PeakRSSI", "PeakRSSI", -60))
        every += (("FirstSeenTimestamp", "FirstSeenTimestampUTC", 5), ("TagSeenCount", "TagSeenCount", 1))
        found = [
            self.it.parameter(name, **{name: value})
            for select_name, name, value in every
            if selected[f"Enable{select_name}"] or self.mistake == "reports_all"
        ]
        read = [self.read(spec) for spec in self.access.values() if spec["CurrentState"]]
        return self.it.parameter("TagReportData", self.it.parameter("EPC-96", EPC=text), *found, *read)

    def read(self, spec):
        operation = self.it.child(spec, "AccessCommand", "C1G2Read")
        wrong = int(self.mistake == "wrong_operation")
        return self.it.parameter("C1G2ReadOpSpecResult", Result=0, OpSpecID=operation["OpSpecID"] + wrong, words=[57984] * operation["WordCount"])

    def change(self, number, state):
        """Changes a ROSpec's state, and tells the client."""
        row = self.table[number]
        was, row.state = row.state, state
        if state == ACTIVE:
            row.began = row.seen = time.monotonic()
        elif row.held and self.it.child(row.spec, "ROReportSpec")["ROReportTrigger"]:
            self.own("RO_ACCESS_REPORT", *row.held)
            row.held = []
        is_told = (self.has_events or self.mistake == "events_always") and self.mistake != "no_rospec_event"
        if ACTIVE in (was, state) and was != state and is_told:
            self.event(self.it.parameter("ROSpecEvent", EventType=0 if state == ACTIVE else 1, ROSpecID=number, PreemptingROSpecID=0))

    # ---- what comes

    def take(self, frame):
        """Answers a frame."""
        number, version, kind = int.from_bytes(frame[6:10], "big"), frame[0] >> 2 & 7, int.from_bytes(frame[:2], "big") & 1023
        number = (number + (self.mistake == "wrong_id")) % (1 << 32)
        if self.mistake == LATE:
            time.sleep(LATE_SECONDS)
        if version != self.version and kind not in (46, 47):
            return self.respond("GET_ROSPECS", number, True) if self.mistake == "any_version" else self.error(number, 110)
        message = self.llrp.messages(frame, all=True)[0][0]
        if "fault" in message:
            return self.take_fault(number, kind, message["fault"])
        serve = getattr(self, message["message"].lower(), None)
        return serve(number, message) if serve else self.error(number, 109)

    def take_fault(self, number, kind, fault):
        """Answers a frame that is no message."""
        if kind == 20:
            place = self.it.parameter("ParameterError", ParameterType=178 if self.mistake == "wrong_place" else 177, ErrorCode=201)
            return self.send("ADD_ROSPEC_RESPONSE", number, self.status(100, place))
        if self.mistake == "closes_on_unknown":
            self.is_open = False
            return None
        return self.error(number, 109 if fault == "MessageType" else 100)

    def keepalive_ack(self, *_):
        self.unanswered = 0

    def custom_message(self, number, _):
        self.error(number, 100 if self.mistake == "custom_is_wrong" else 109)

    def get_supported_version(self, number, _):
        current = 2 if self.mistake == "version_two_at_first" else self.version
        self.send("GET_SUPPORTED_VERSION_RESPONSE", number, self.status(), version=2, CurrentVersion=current, SupportedVersion=2)

    def set_protocol_version(self, number, message):
        is_known = message["ProtocolVersion"] in (1, 2)
        is_taken = is_known or self.mistake == "any_version_set"
        self.send("SET_PROTOCOL_VERSION_RESPONSE", number, self.status(0 if is_taken else 110), version=2)
        if is_known and self.mistake != "answers_in_one":
            self.version = message["ProtocolVersion"]

    def close_connection(self, number, _):
        self.respond("CLOSE_CONNECTION", number, True)
        self.is_open = self.mistake == "stays_open"

    # ---- capabilities and configuration

    def get_reader_capabilities(self, number, _):
        make = self.it.parameter
        air = [make("PerAntennaAirProtocol", AntennaID=at, Count=1, octets="01") for at in (1, 2)]
        device = {"MaxNumberOfAntennaSupported": 2, "CanSetAntennaProperties": 0, "HasUTCClockCapability": 1}
        device.update(DeviceManufacturerName=0, ModelName=0, text="")
        parts = [
            make(
                "GeneralDeviceCapabilities",
                make("ReceiveSensitivityTableEntry", Index=1, ReceiveSensitivityValue=0),
                make("GPIOCapabilities", NumGPIs=0, NumGPOs=0),
                *air,
                **device,
            ),
            make("LLRPCapabilities", **self.llrp_capabilities()),
            make("RegulatoryCapabilities", self.band(), CountryCode=0, CommunicationsStandard=0),
            make("C1G2LLRPCapabilities", **self.c1g2_capabilities()),
        ]
        if self.mistake == "no_regulatory":
            del parts[2]
        self.send("GET_READER_CAPABILITIES_RESPONSE", number, self.status(), *parts)

    def llrp_capabilities(self):
        made = dict.fromkeys(("CanDoRFSurvey", "CanReportBufferFillWarning", "SupportsClientRequestOpSpec"), 0)
        made.update(CanDoTagInventoryStateAwareSingulation=0, SupportsEventAndReportHolding=1, MaxNumPriorityLevelsSupported=8)
        made.update(ClientRequestOpSpecTimeout=0, MaxNumROSpecs=ROOM, MaxNumSpecsPerROSpec=0, octets="00" * 12)
        return made

    def c1g2_capabilities(self):
        names = "BlockErase BlockWrite BlockPermalock TagRecommissioning UMIMethod2 XPC"
        return {**{f"CanSupport{name}": 0 for name in names.split()}, "MaxNumSelectFiltersPerQuery": 2}

    def band(self):
        """The UHFBandCapabilities: two powers, two channels of one hop table, one mode."""
        make = self.it.parameter
        indexes = (1, 1) if self.mistake == "index_twice" else (1, 2)
        powers = (3000, 1000) if self.mistake == "powers_fall" else (1000, 3000)
        entries = [make("TransmitPowerLevelTableEntry", Index=at, TransmitPowerValue=power) for at, power in zip(indexes, powers)]
        count = 3 if self.mistake == "short_table" else 2
        hops = make("FrequencyHopTable", HopTableID=1, Count=count, octets="000d37fc000d3ac4" + ("" if count == 2 else "0000"))
        mode = dict.fromkeys(("ModeIdentifier", "DRValue", "EPCHAGTCConformance", "ForwardLinkModulation", "SpectralMaskIndicator"), 0)
        modes = make("C1G2UHFRFModeTable", make("C1G2UHFRFModeTableEntry", MValue=2, BDRValue=40000, octets="00" * 16, **mode))
        return make("UHFBandCapabilities", *entries, make("FrequencyInformation", hops, Hopping=1), modes)

    def get_reader_config(self, number, message):
        make, asked = self.it.parameter, message["RequestedData"]
        found = []
        if asked in (0, 2):
            there = (1,) if self.mistake == "one_antenna" else (1, 2)
            found += [make("AntennaProperties", AntennaConnected=1, AntennaID=at, AntennaGain=0) for at in there]
        if asked in (0, 5):
            found.append(self.it.notification(2, self.has_events))
        if asked in (0, 8):
            found.append(self.it.keepalive_spec(0 if self.mistake == "forgets_configuration" else int(self.period * 1000)))
        if asked in (0, 11):
            found.append(make("EventsAndReports", HoldEventsAndReportsUponReconnect=int(self.holds)))
        self.send("GET_READER_CONFIG_RESPONSE", number, self.status(), *found)

    def set_reader_config(self, number, message):
        spec = self.it.child(message, "KeepaliveSpec")
        if spec and not (self.mistake == "keepalive_goes_on" and not spec["KeepaliveTriggerType"]):
            self.period = spec["PeriodicTriggerValue"] / 1000 if spec["KeepaliveTriggerType"] else 0.0
            self.due = time.monotonic() + self.period if self.period else None
        if spec := self.it.child(message, "ReaderEventNotificationSpec", "EventNotificationState"):
            self.has_events = bool(spec["NotificationState"])
        if spec := self.it.child(message, "EventsAndReports"):
            self.holds = bool(spec["HoldEventsAndReportsUponReconnect"])
        self.respond("SET_READER_CONFIG", number, True)

    def enable_events_and_reports(self, *_):
        self.is_held = False

    # ---- ROSpecs

    def add_rospec(self, number, message):
        spec = self.it.child(message, "ROSpec")
        own = spec["ROSpecID"]
        is_new = own not in self.table or self.mistake == "id_twice"
        has_room = len(self.table) < ROOM or self.mistake == "no_bound"
        is_right = bool(own) and is_new and has_room and spec["CurrentState"] == DISABLED
        if is_right:
            self.table[own] = Row(spec)
        self.respond("ADD_ROSPEC", number, is_right)

    def moved(self, name, number, message, allowed, state):
        """Answers a request for a ROSpec, and changes its state; returns its row where it did."""
        row = self.table.get(message["ROSpecID"])
        is_right = row is not None and row.state in allowed
        self.respond(name, number, is_right)
        if is_right:
            self.change(message["ROSpecID"], state)
        return row if is_right else None

    def enable_rospec(self, number, message):
        state = ACTIVE if self.mistake == "enabled_is_active" else INACTIVE
        row = self.moved("ENABLE_ROSPEC", number, message, (DISABLED, INACTIVE, ACTIVE), state)
        if row and self.trigger(row)["type"] == 1 and self.mistake != "never_immediate":
            self.change(message["ROSpecID"], ACTIVE)
        if row and self.trigger(row)["type"] == 2:
            row.again = time.monotonic()

    def start_rospec(self, number, message):
        allowed = (DISABLED, INACTIVE) if self.mistake == "starts_disabled" else (INACTIVE,)
        self.moved("START_ROSPEC", number, message, allowed, ACTIVE)

    def stop_rospec(self, number, message):
        self.moved("STOP_ROSPEC", number, message, (ACTIVE,), INACTIVE)

    def disable_rospec(self, number, message):
        self.moved("DISABLE_ROSPEC", number, message, (DISABLED, INACTIVE, ACTIVE), DISABLED)

    def delete_rospec(self, number, message):
        is_there = self.table.pop(message["ROSpecID"], None) is not None
        self.respond("DELETE_ROSPEC", number, is_there or self.mistake == "unknown_deleted")

    def get_rospecs(self, number, _):
        specs = [{**row.spec, "CurrentState": row.state} for row in self.table.values()]
        self.send("GET_ROSPECS_RESPONSE", number, self.status(), *specs)

    def get_report(self, *_):
        held = [tag for row in self.table.values() for tag in row.held]
        for row in self.table.values():
            row.held = []
        if held or self.mistake != "no_empty_report":
            self.own("RO_ACCESS_REPORT", *held)

    # ---- AccessSpecs

    def add_accessspec(self, number, message):
        spec = self.it.child(message, "AccessSpec")
        self.access[spec["AccessSpecID"]] = spec
        self.respond("ADD_ACCESSSPEC", number, True)

    def access_moved(self, name, number, message, state):
        spec = self.access.get(message["AccessSpecID"])
        if spec:
            spec["CurrentState"] = state
        self.respond(name, number, spec is not None)

    def enable_accessspec(self, number, message):
        self.access_moved("ENABLE_ACCESSSPEC", number, message, int(self.mistake != "access_disabled"))

    def disable_accessspec(self, number, message):
        self.access_moved("DISABLE_ACCESSSPEC", number, message, 0)

    def delete_accessspec(self, number, message):
        is_there = self.access.pop(message["AccessSpecID"], None) is not None
        self.respond("DELETE_ACCESSSPEC", number, is_there or self.mistake == "unknown_access_deleted")

    def get_accessspecs(self, number, _):
        self.send("GET_ACCESSSPECS_RESPONSE", number, self.status(), *self.access.values())
