#!/usr/bin/env python3
"""Makes the XML of the LLRP Toolkits of frames of all kinds and reads it back, by way of libxml2 too; reads the toolkits' spellings; refuses
documents that are none, and damaged ones without another exception than a refusal; compares names of enumerations with tshark's; and runs
the command, the example of docs/xml.md, and python/check_definitions.py.

usage: tests/ltkxml.py [PROGRAM]

PROGRAM is llrp, crates/llrp/out/llrp where none is given. It needs what library.sh needs, tshark, xmllint and groff. The last line is
`N passed, M failed`; the status is 1 if something failed.
"""
import json
import os
import random
import re
import subprocess
import sys
import tempfile
import xml.etree.ElementTree as ElementTree

from parts.counting import finish_results, snippet, text_of
from parts.frames import lawful_cases
from parts.mixed_frames import mixed_frames
from parts.package import package_with_library
from parts.ports import held_port
from parts.repository import TOP, program_given

# How many comparisons there are, how many frames are drawn by chance, and how many documents and lines are damaged.
LEAST, MIXED, DAMAGED = 9200, 700, 1500
LONGEST = 170
SPACE = "{http://www.llrp.org/ltk/schema/core/encoding/xml/1.0}"
# One moment in the spellings that toolkits have.
MOMENTS = ("2010-09-28T18:20:45.123456Z", "2010-09-28T20:20:45.1234569+02:00", "2010-09-28T18:20:45.123456", "1285698045123456")
MOMENT = 1285698045123456
# The words of a read in such spellings.
WORDS = ("E280 1190", "E2801190", "e280 1190", " E280\n1190 ")
# Documents that are refused, each with the reason.
STATUS = "<LLRPStatus><StatusCode>M_Success</StatusCode><ErrorDescription/>"
PLACE = "<ParameterError><ParameterType>1</ParameterType><ErrorCode>M_Success</ErrorCode>"
REFUSED = {
    '<!DOCTYPE a [<!ENTITY x "y">]><KEEPALIVE MessageID="1"/>': "a DOCTYPE is not read",
    "": "no element found: line 1, column 0",
    "<ROSpecID><ROSpecID>1</ROSpecID></ROSpecID>": "ROSpecID is no message",
    "<FOO/>": "FOO: no message or parameter",
    '<KEEPALIVE MessageID="1"><Foo/></KEEPALIVE>': "KEEPALIVE/Foo: no message or parameter",
    '<DELETE_ROSPEC MessageID="1"/>': "DELETE_ROSPEC: ROSpecID is missing",
    "<DELETE_ROSPEC><ROSpecID>1</ROSpecID><ROSpecID>2</ROSpecID></DELETE_ROSPEC>": "DELETE_ROSPEC/ROSpecID: text between elements",
    "<DELETE_ROSPEC><ROSpecID>4294967296</ROSpecID></DELETE_ROSPEC>": "DELETE_ROSPEC: ROSpecID: 4294967296 is out of its range",
    "<DELETE_ROSPEC><ROSpecID>-1</ROSpecID></DELETE_ROSPEC>": "DELETE_ROSPEC: ROSpecID: -1 is out of its range",
    "<GET_READER_CAPABILITIES><RequestedData>Every</RequestedData></GET_READER_CAPABILITIES>": "GET_READER_CAPABILITIES: RequestedData: neither a "
    "number nor a name of this field: 'Every'",
    '<KEEPALIVE MessageID="x"/>': "neither a number nor a name of this field: 'x'",
    '<KEEPALIVE MessageID="1">7</KEEPALIVE>': "KEEPALIVE: text between elements",
    f"<ERROR_MESSAGE>{STATUS}<Foo/></LLRPStatus></ERROR_MESSAGE>": "ERROR_MESSAGE/LLRPStatus/Foo: no message or parameter",
    f"<ERROR_MESSAGE>{STATUS}{PLACE * 40}{'</ParameterError>' * 40}</LLRPStatus></ERROR_MESSAGE>": "ERROR_MESSAGE/LLRPStatus"
    + "/ParameterError" * 32
    + ": nested too deep",
}
# Lines that have no document, each with the reason.
NO_XML = {
    '{"fault":"Short","id":1,"bit":3}': 'no message: {"fault": "Short", "id": 1, "bit": 3}',
    '{"message":"FOO","version":1,"id":1}': "no message of LLRP 1.1: 'FOO'",
    '{"message":"DELETE_ROSPEC","version":1,"id":1}': "DELETE_ROSPEC: ROSpecID is missing or unknown in a line of all of LLRP 1.1",
    '{"message":"DELETE_ROSPEC","version":1,"id":1,"ROSpecID":"x"}': "ROSpecID: no number: 'x'",
    '{"message":"DELETE_ROSPEC","version":1,"id":1,"ROSpecID":1.5}': "ROSpecID: no number: 1.5",
}
# What a text may have that XML 1.0 cannot say, or that a parser changes.
TEXTS = ("", "a\x00b", "\x01\x1f", "\r\n\t", " a ", "\x85\u2028", "\ufffe\uffff", "<&>\"']]>", "é\U0001f600", "\ufffd", "\x7f")
# The enumerations of which tshark has the names, each with the field that has it there; and the names that differ in a word, with tshark's.
SHARK = {
    "GetReaderCapabilitiesRequestedData": "llrp.req_cap",
    "GetReaderConfigRequestedData": "llrp.req_conf",
    "CommunicationsStandard": "llrp.param.comm_standard",
    "IdentificationType": "llrp.param.id_type",
    "KeepaliveTriggerType": "llrp.param.keepalive_trig_type",
    "NotificationEventType": "llrp.param.event_type",
    "ROSpecEventType": "llrp.param.roevent_type",
    "RFSurveyEventType": "llrp.param.rfevent_type",
    "AISpecEventType": "llrp.param.aievent_type",
    "AntennaEventType": "llrp.param.antenna_event_type",
    "ConnectionAttemptStatusType": "llrp.param.conn_status",
    "StatusCode": "llrp.param.status_code",
}
OTHERWISE = {
    ("GetReaderCapabilitiesRequestedData", 4): ("LLRP_Air_Protocol_Capabilities", "Air Protocol LLRP Capabilities"),
    ("IdentificationType", 0): ("MAC_Address", "MAC"),
    ("RFSurveyEventType", 0): ("Start_Of_RFSurvey", "Start of survey"),
    ("RFSurveyEventType", 1): ("End_Of_RFSurvey", "End of survey"),
    ("StatusCode", 112): ("M_UnexpectedMessage", ""),
}

PROGRAM = program_given()


def document(text):
    """Returns a message whose status has a text."""
    return {"message": "ERROR_MESSAGE", "version": 1, "id": 1, "parameters": [{"parameter": "LLRPStatus", "StatusCode": 0, "text": text}]}


def refusal(do):
    """Returns the reason for which something is refused; "" where it is not."""
    from llrp_epc.ltkxml import Mismatch

    try:
        do()
    except Mismatch as error:
        return str(error)
    return ""


def bag(item):
    """Returns an object whose parameters are in an order that is the same for all orders, as a text."""
    inner = sorted(bag(one) for one in item.get("parameters", []))
    return json.dumps([{key: value for key, value in item.items() if key != "parameters"}, inner], sort_keys=True)


def round_trips(converters, frames):
    """Yields whether each frame is what its document says; and what libxml2 makes of the documents."""
    plain, ordered, several = converters
    texts = []
    for frame in frames:
        message = plain.llrp.messages(frame, all=True)[0][0]
        text = plain.xml(message)
        texts.append(text)
        back = plain.message(text)
        yield f"octets, document, octets: {frame.hex()}", back == message and plain.llrp.pack([back], all=True) == frame
        yield f"on several lines: {frame.hex()}", several.message(several.xml(message)) == message
        sorted_back = ordered.message(ordered.xml(message))
        yield f"in order: {frame.hex()}", bag(sorted_back) == bag(message) and ordered.xml(sorted_back) == ordered.xml(message)
    whole = f"<all>{''.join(texts)}</all>".encode()
    done = subprocess.run(["xmllint", "--huge", "--noblanks", "-"], input=whole, capture_output=True, timeout=LONGEST)
    yield f"xmllint has nothing to say: {done.stderr[:200]}", (done.returncode, done.stderr) == (0, b"")
    documents = list(ElementTree.fromstring(done.stdout))
    yield "libxml2 has as many documents", len(documents) == len(texts)
    for text, found in zip(texts, documents):
        yield f"by libxml2: {text[:200]}", plain.message(ElementTree.tostring(found, encoding="unicode")) == plain.message(text)


def spellings(converter):
    """Yields whether a value is read in each of the toolkits' spellings."""
    for text in MOMENTS:
        inner = f"<UTCTimestamp><Microseconds>{text}</Microseconds></UTCTimestamp>"
        notice = f"<READER_EVENT_NOTIFICATION><ReaderEventNotificationData>{inner}</ReaderEventNotificationData></READER_EVENT_NOTIFICATION>"
        found = converter.message(notice)["parameters"][0]["parameters"][0]
        yield f"the moment {text}", found == {"parameter": "UTCTimestamp", "Microseconds": MOMENT}
    for text in WORDS:
        result = f"<C1G2ReadOpSpecResult><Result>Success</Result><OpSpecID>1</OpSpecID><ReadData>{text}</ReadData></C1G2ReadOpSpecResult>"
        tag = f"<TagReportData><EPC_96><EPC>3074257bf7194e4000001a85</EPC></EPC_96>{result}</TagReportData>"
        found = converter.message(f"<RO_ACCESS_REPORT>{tag}</RO_ACCESS_REPORT>")["parameters"][0]["parameters"]
        wanted = [{"parameter": "EPC-96", "EPC": "urn:epc:tag:sgtin-96:3.0614141.812345.6789"}]
        wanted.append({"parameter": "C1G2ReadOpSpecResult", "Result": 0, "OpSpecID": 1, "words": [0xE280, 0x1190]})
        yield f"the words {text!r}", found == wanted
    for text, value in {"true": 1, "1": 1, "false": 0, " 0 ": 0}.items():
        found = converter.message(f"<SET_READER_CONFIG><ResetToFactoryDefault>{text}</ResetToFactoryDefault></SET_READER_CONFIG>")
        yield f"the flag {text!r}", found["ResetToFactoryDefault"] == value
    for text in ("Disabled", "0"):
        found = converter.message(text_of("examples/add_rospec.xml").replace("Disabled", text))
        yield f"the state {text}", found["parameters"][0]["CurrentState"] == 0
    yield "a maker's element", '"ParameterSubtype": 23, "octets": "0002"' in json.dumps(found)


def refusals(converter):
    """Yields whether documents that are none are refused, and for what."""
    for text, reason in REFUSED.items():
        said = refusal(lambda text=text: converter.message(text))
        yield f"the document {text[:80]}: {said}", said == reason
    for line, reason in NO_XML.items():
        said = refusal(lambda line=line: converter.xml(json.loads(line)))
        yield f"the line {line}: {said}", said == reason
    for text in TEXTS:
        message = document(text)
        made = converter.xml(message)
        yield f"the text {text!r}", converter.message(made) == message and ElementTree.fromstring(made) is not None


def damage(converter, frames):
    """Yields whether damaged documents and lines end in a refusal or a message, and in no other exception."""
    chance = random.Random(3)
    messages = [converter.llrp.messages(frame, all=True)[0][0] for frame in frames if len(frame) < 300]
    texts = [converter.xml(message) for message in messages]
    for _ in range(DAMAGED):
        text = chance.choice(texts)
        first = chance.randrange(len(text))
        last = first + chance.choice((0, 1, 1, 2, 8))
        put = chance.choice(("", "<", ">", "&", "0", "9", "-1", "é", "\x00", '"', text[first:last] * 2, "9" * 20, " "))
        yield "a damaged document", is_taken(lambda text=text, first=first, last=last, put=put: converter.message(text[:first] + put + text[last:]))
    for _ in range(DAMAGED):
        message = json.loads(json.dumps(chance.choice(messages)))
        item = chance.choice(list(places(message)))
        key = chance.choice([key for key in item if key not in ("version", "id", "parameters")])
        item[key] = chance.choice((None, -1, 1 << 70, "x", "", [], [70000], ["a"], {}, 1.5, True, "\ud800"))
        yield "a damaged line", is_taken(lambda message=message: converter.xml(message))


def places(item):
    """Yields an object and all below it."""
    yield item
    for one in item.get("parameters", []):
        yield from places(one)


def is_taken(do):
    """Returns whether something is done, or refused by a ValueError."""
    try:
        do()
    except ValueError:
        pass
    return True


def command(environment, *words, given=b""):
    run = [sys.executable, "-m", "llrp_epc.ltkxml", *words]
    done = subprocess.run(run, env=environment, cwd=TOP, input=given, capture_output=True, timeout=LONGEST)
    return done.returncode, done.stdout, done.stderr.decode()


def of_command(environment):
    """Yields what the command does with lines and documents, and what it says where some are refused."""
    octets = subprocess.run([PROGRAM, "encode", "--all"], input=text_of("examples/report.txt").encode(), capture_output=True, timeout=LONGEST).stdout
    lines = subprocess.run([PROGRAM, "show", "--all", "--json"], input=octets * 2, capture_output=True, timeout=LONGEST).stdout
    status, documents, told = command(environment, given=lines)
    yield f"two documents: {told}", (status, told) == (0, "") and documents.count(b"\n") == 2 and documents.count(b"<RO_ACCESS_REPORT xmlns=") == 2
    yield "and back", command(environment, "--read", given=documents) == (0, lines, "")
    status, several, _ = command(environment, "--lines", "--ordered", given=lines.splitlines()[0])
    yield "on several lines", status == 0 and several.count(b"\n") > 10
    yield "one document in a file", command(environment, "--read", given=several) == (0, lines.splitlines(True)[0], "")
    status, said, told = command(environment, given=b"[1]\n" + lines)
    yield f"a line that is refused: {told}", (status, said, told) == (1, documents, "llrp-xml: -:1: no message: [1]\n")
    status, said, told = command(environment, "--read", given=b'<KEEPALIVE MessageID="1"/>\n<FOO/>\n')
    wanted = b'{"message":"KEEPALIVE","version":1,"id":1}\n'
    yield f"a document that is refused: {told}", (status, said, told) == (1, wanted, "llrp-xml: -:2: FOO: no message or parameter\n")
    status, _, told = command(environment, "/nowhere")
    yield f"no file: {told}", status == 3 and told.startswith("llrp-xml: ")
    yield "no table", command(environment, "--table", "/nowhere")[0] == 2


def of_page(environment, folder):
    """Yields whether the example of the page gives what it shows, and the ROSpec that it makes is one that `watch` takes."""
    os.makedirs(f"{folder}/bin")
    for name, words in (("llrp", PROGRAM), ("llrp-xml", f"{sys.executable} -m llrp_epc.ltkxml")):
        with open(f"{folder}/bin/{name}", "w", encoding="utf-8") as file:
            file.write(f'#!/bin/sh\nexec {words} "$@"\n')
        os.chmod(f"{folder}/bin/{name}", 0o755)
    shell = {**environment, "PATH": f"{folder}/bin:{environment['PATH']}"}
    for heading in ("A report in hexadecimal digits:", "An old ADD_ROSPEC for a night's run:"):
        lines = snippet("docs/xml.md", heading).splitlines()
        script = "\n".join(line[2:] for line in lines if line.startswith("$ ")).replace("examples/", f"{TOP}/examples/")
        done = subprocess.run(["bash", "-c", script], cwd=folder, env=shell, capture_output=True, text=True, timeout=LONGEST)
        yield f"{heading} {done}", done.stdout.splitlines() == [line for line in lines if not line.startswith("$ ")]
    with held_port() as port:
        reader = subprocess.Popen([PROGRAM, "sim", str(port), "--clock", "real"], stdin=subprocess.DEVNULL)
        try:
            words = [PROGRAM, "watch", f"127.0.0.1:{port}", "--rospec", f"{folder}/my.rospec", "--for", "1", "--again", "1"]
            done = subprocess.run(words, capture_output=True, text=True, timeout=LONGEST)
        finally:
            reader.kill()
            reader.wait(LONGEST)
    yield f"watch takes the ROSpec: {done}", done.returncode == 0
    manual = text_of("docs/llrp-xml.1")
    for option in ("read", "ordered", "lines", "table"):
        yield f"--{option}", manual.count(f"Fl \\-{option}") >= 2 and f"`--{option}" in text_of("docs/xml.md")
    done = subprocess.run(["groff", "-mdoc", "-ww", "-z", "-Tutf8", "docs/llrp-xml.1"], cwd=TOP, capture_output=True, text=True, timeout=LONGEST)
    yield "groff has nothing to say", (done.returncode, done.stdout, done.stderr) == (0, "", "")


def by_tshark():
    """Yields whether names of enumerations are tshark's words for the same numbers, and whether the table says so of each."""
    from llrp_epc import _standard

    done = subprocess.run(["tshark", "-G", "values"], capture_output=True, timeout=LONGEST, check=True)
    theirs = {}
    for line in done.stdout.decode("utf-8", "replace").splitlines():
        words = line.split("\t")
        if words[0] == "V" and words[1].startswith("llrp."):
            theirs.setdefault(words[1], {})[int(words[2], 0)] = words[3]
    for name, field in SHARK.items():
        ours, there = _standard.ENUMERATIONS[name], theirs[field]
        for number in sorted({*ours, *there}):
            pair = ours.get(number, ""), there.get(number, "")
            is_same = squeezed(pair[0]) == squeezed(pair[1])
            yield f"{name} {number}: {pair}", is_same or OTHERWISE.get((name, number)) == pair
    rows = [line.split("\t") for line in text_of("crates/llrp_schema/enumerations.tsv").splitlines() if not line.startswith("#")]
    for name, number, ours, sure in rows:
        words = theirs[SHARK[name]].get(int(number)) if name in SHARK else None
        wanted = "memory" if words is None else "wireshark" if squeezed(words) == squeezed(ours) else "otherwise"
        yield f"how sure {name} {number} is: {sure}", sure == wanted


def squeezed(text):
    """Returns the letters and digits of a text, in lower case."""
    return re.sub(r"[^a-z0-9]", "", text.lower())


def of_tables(environment):
    """Yields whether standard.tsv is what its script writes, and what is said of a definition file that agrees but in one place."""
    words = [sys.executable, os.path.join(TOP, "python/write_standard.py"), "--check"]
    yield "standard.tsv", subprocess.run(words, timeout=LONGEST).returncode == 0
    words = [sys.executable, os.path.join(TOP, "python/check_definitions.py"), os.path.join(TOP, "tests/few-definitions.xml")]
    done = subprocess.run(words, env={**environment, "LD_LIBRARY_PATH": os.path.join(TOP, "out")}, capture_output=True, text=True, timeout=LONGEST)
    wanted = ["ROSpec: AISpec|Custom|LoopSpec|RFSurveySpec None there, 1..n here", "ROSpec: AISpec|Custom|RFSurveySpec 1..n there, None here"]
    wanted.append("4 kinds and 1 enumerations of the file: 2 differences")
    yield f"check_definitions.py: {done}", done.stdout.splitlines() == wanted and done.returncode == 1


def main():
    with tempfile.TemporaryDirectory() as folder:
        environment = package_with_library(folder)
        sys.path.insert(0, folder)
        sys.dont_write_bytecode = True
        from llrp_epc.ltkxml import Converter
        from llrp_epc.makers import Makers

        makers = Makers().load("impinj.tsv")
        frames = [case.frame for case in lawful_cases()] + list(mixed_frames(MIXED))
        plain = Converter(makers)
        results = list(round_trips([plain, Converter(makers, is_ordered=True), Converter(makers, has_lines=True)], frames))
        results += [*spellings(plain), *refusals(plain), *damage(plain, frames)]
        results += [*of_command(environment), *of_page(environment, folder), *of_tables(environment), *by_tshark()]
    return finish_results(results, LEAST)


if __name__ == "__main__":
    sys.exit(main())
