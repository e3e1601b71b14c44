#!/usr/bin/env python3
"""Compares the keys that `epc --list` makes of random tag URIs with what Debian's python3-stdnum finds in them: their check digits, and the
values of their element strings. Each key is also read back to the word of its tag URI, some are answered as objects of JSON, those of a
listing that `show --keys` prints are compared and read back by `encode --keys`, and those of a simulated reader's tags by `inventory --keys`. With
`--schemes all` the forms of random tag URIs of GIAI-96, GSRNP-96, SGCN-96 and CPI-96 are compared in the same way, in listings and inventories
too, and random words of USDoD-96 and their forms with those that are made of the layout here.

usage: tests/keys.py [--seed N] [PROGRAM]

PROGRAM is llrp, crates/llrp/out/llrp where none is given. The first line says the seed that the tags are drawn by, with which a run is made
again. It needs python3-stdnum. The last line is `N passed, M failed`; the status is 1 if something failed or too little was run.
"""
import argparse
import json
import os
import random
import subprocess
import sys
import tempfile

from parts.counting import finish_results
from parts.repository import built

# How many tags of each scheme are compared, and how many cases there are (a number of its own, so that it does not fall with the others).
EACH = 300
LEAST = 20521
# How many of them are answered as objects of JSON, for each length of the company prefix.
OBJECTS = 3
# The names of the keys of those schemes.
NAMES = {"sgtin": "gtin", "sscc": "sscc", "sgln": "gln", "grai": "grai", "gdti": "gdti", "gsrn": "gsrn"}
# The digits of company prefix and reference together, the digits of the reference that come first in the key, the application identifier and
# what comes before the key, and that of the serial number, by schemes (TDS 1.13, sections 7 and 14).
SCHEMES = {
    "sgtin": (13, 1, "(01)", "(21)"),
    "sscc": (17, 1, "(00)", None),
    "sgln": (12, 0, "(414)", "(254)"),
    "grai": (12, 0, "(8003)0", ""),
    "gdti": (12, 0, "(253)", ""),
    "gsrn": (17, 0, "(8018)", None),
}
# The bits of the reference of GIAI-96, by the digits of the company prefix from six on (TDS 1.13, section 14).
ASSET_BITS = (62, 58, 55, 52, 48, 45, 42)
# The options for the set of all schemes.
ALL_SCHEMES = ("--schemes", "all")
# What Debian's Python finds a key of a further scheme under: its application identifier.
IDENTIFIERS = {"giai": "8004", "gsrnp": "8017", "sgcn": "255", "cpi": "8010"}
# The characters of a code of USDoD-96.
CODE = "0123456789ABCDEFGHJKLMNPQRSTUVWXYZ"
# What Debian's Python says of lines: a check digit for digits, and the values of an element string.
JUDGE = """
import json, sys
from stdnum import ean, gs1_128
for line in sys.stdin:
    digits, element = json.loads(line)
    told = gs1_128.info(element) if element else {}
    print(json.dumps([ean.calc_check_digit(digits), {key: str(value) for key, value in told.items()}]))
"""


def answers(program, texts, *words):
    """Returns the line of `epc --list` for each text."""
    done = subprocess.run([program, "epc", "--list", *words], input="\n".join(texts), capture_output=True, text=True, timeout=60)
    return done.stdout.splitlines()


def judged(pairs):
    """Returns the check digit and the values that Debian's Python finds in each pair of digits and an element string."""
    lines = "".join(json.dumps(pair) + "\n" for pair in pairs)
    done = subprocess.run(["/usr/bin/python3", "-c", JUDGE], input=lines, capture_output=True, text=True, timeout=60, check=True)
    return [json.loads(line) for line in done.stdout.splitlines()]


def digits(count):
    """Returns random digits, as many as `count` says."""
    return "".join(random.choices("0123456789", k=count))


def tags_of(scheme, company_digits):
    """Returns random tag URIs of a scheme, and for each the digits of its key before the check digit and its serial number."""
    count, lead, _, serial = SCHEMES[scheme]
    for _ in range(EACH // 7 + 1):
        company, reference = digits(company_digits), digits(count - company_digits)
        number = str(random.randrange(1, 2**38)) if serial is not None else None
        parts = [str(random.randrange(8)), company, reference, *([number] if number else [])]
        yield f"urn:epc:tag:{scheme}-96:{'.'.join(parts)}", reference[:lead] + company + reference[lead:], number


def words_of(program, tags, elements, company_digits):
    """Returns the word of each element string, read with the filter value of its tag URI and the number of digits of the company prefix."""
    words = {}
    for value in range(8):
        texts = [element for (tag, _, _), element in zip(tags, elements) if tag.split(":")[4].startswith(f"{value}.")]
        unsaid = ("--filter", str(value), "--prefix-digits", str(company_digits))
        words.update({(value, text): word for text, word in zip(texts, answers(program, texts, "--to", "hex", *unsaid))})
    return [words[int(tag.split(":")[4][0]), element] for (tag, _, _), element in zip(tags, elements)]


def objects(program, company_digits, elements, told):
    """Yields whether the first element strings are answered as objects of JSON with their one form, and with the right digit where the check
    digit is another."""
    options = ("--to", "element", "--json", "--prefix-digits", str(company_digits))
    scheme = next(start for _, _, start, _ in SCHEMES.values() if elements[0].startswith(start))
    count = next(digits for digits, _, start, _ in SCHEMES.values() if start == scheme)
    for element, (digit, _) in list(zip(elements, told))[:OBJECTS]:
        at = len(scheme) + count
        wrong = element[:at] + str((int(digit) + 1) % 10) + element[at + 1 :]
        right, refused = (json.loads(line) for line in answers(program, [element, wrong], *options))
        yield f"the object of {element}: {right}", right == {"element": element}
        yield f"the object of {wrong}: {refused}", refused == {"refused": "Check", "right": digit}


def listings(program, scheme, tags, told):
    """Yields whether `show --keys` puts the keys after the EPCs of a report, `encode --keys` reads that, and refuses another check digit."""
    texts = [f"2 EPC-96 {tag}" for tag, _, _ in tags]
    # (a GLN without extension has an extension of 0, which the key leaves out; these have others)
    keys = [f"{NAMES[scheme]} {front}{digit}{f' {number}' if number else ''}" for (_, front, number), (digit, _) in zip(tags, told)]
    listing, labelled = ("".join(f"1 TagReportData\n{line}\n" for line in lines) for lines in (texts, [f"{text}\t{key}" for text, key in zip(texts, keys)]))
    head = "0 RO_ACCESS_REPORT 1 1\n"
    stream = run(program, "encode", input=(head + listing).encode()).stdout
    shown = run(program, "show", "--keys", input=stream).stdout.decode()
    yield f"the keys of a listing of {scheme}", shown == head + labelled
    yield f"the stream of a listing of {scheme} with keys", run(program, "encode", "--keys", input=shown.encode()).stdout == stream
    digit = told[0][0]
    at = shown.index("\t") + len(NAMES[scheme]) + 1 + len(tags[0][1])
    wrong = shown[: at + 1] + str((int(digit) + 1) % 10) + shown[at + 2 :]
    done = run(program, "encode", "--keys", input=wrong.encode())
    yield f"a wrong key in a listing of {scheme}: {done.stderr}", (done.stdout, done.stderr, done.returncode) == (b"", b"llrp: line 3: Epc Key\n", 1)


def inventory(program, texts, *options):
    """Returns the members of each object that `inventory --json --keys` prints of the tags with these texts that a simulated reader sees."""
    script = "".join(f"3 {at} seen 1 -60 {text}\n" for at, text in enumerate(texts))
    with subprocess.Popen([program, "sim", "0", "--ready"], stdin=subprocess.PIPE, stderr=subprocess.PIPE, text=True) as reader:
        reader.stdin.write(script)
        reader.stdin.close()
        port = reader.stderr.readline().rpartition(":")[2].strip()
        lines = run(program, "inventory", "127.0.0.1", port, "--json", "--keys", *options, input=b"").stdout.splitlines()
    return [list(json.loads(line).items()) for line in lines]


def totals(tags):
    """Returns the members of the last objects of an inventory with one report of these tags."""
    return [[("report", len(tags))], [("tags", len(tags)), ("reports", 1)]]


def inventories(program, scheme, tags, told):
    """Yields whether `inventory --json --keys` prints the keys as the last members of the tags that a simulated reader sees."""
    wanted = [
        [("epc", tag), ("antenna", 1), ("rssi", -60), (NAMES[scheme], front + digit), *([("serial", number)] if number else [])]
        for (tag, front, number), (digit, _) in zip(tags, told)
    ]
    seen = inventory(program, [tag for tag, _, _ in tags])
    yield f"the keys of an inventory of {scheme}", seen == [*wanted, *totals(tags)]


def further_parts(scheme, company_digits):
    """Returns a random company prefix, reference and, if the scheme has one, serial number of a further scheme."""
    company = digits(company_digits)
    if scheme == "giai":
        return company, str(random.randrange(2 ** ASSET_BITS[company_digits - 6])), None
    if scheme == "gsrnp":
        return company, digits(17 - company_digits), None
    if scheme == "sgcn":
        return company, digits(12 - company_digits), digits(random.randrange(1, 13))
    return company, str(random.randrange(10 ** (15 - company_digits))), str(random.randrange(2**31))


def further_forms(scheme, parts, digit):
    """Returns pure identity, element string, link and key of an EPC of a further scheme, by its parts and its check digit."""
    company, reference, serial = parts
    pure = f"urn:epc:id:{scheme}:{'.'.join(part for part in parts if part is not None)}"
    front, link = company + reference, f"https://id.gs1.org/{IDENTIFIERS[scheme]}/"
    start = f"({IDENTIFIERS[scheme]})"
    if scheme == "giai":
        return pure, start + front, link + front, f"giai {front}"
    if scheme == "gsrnp":
        return pure, start + front + digit, link + front + digit, f"gsrnp {front}{digit}"
    if scheme == "sgcn":
        return pure, start + front + digit + serial, link + front + digit + serial, f"gcn {front}{digit} {serial}"
    return pure, f"{start}{front}(8011){serial}", f"{link}{front}/8011/{serial}", f"cpi {front} {serial}"


def further(program, scheme, company_digits):
    """Yields whether the forms of random EPCs of a further scheme are those that their parts and the judge say, and are read back."""
    unsaid = ("--filter", "3", "--prefix-digits", str(company_digits), *ALL_SCHEMES)
    rows = [further_parts(scheme, company_digits) for _ in range(EACH // 7 + 1)]
    tags = [f"urn:epc:tag:{scheme}-96:3.{'.'.join(part for part in parts if part is not None)}" for parts in rows]
    words = answers(program, tags, "--to", "hex", *ALL_SCHEMES)
    found = {form: answers(program, words, "--to", form, *ALL_SCHEMES) for form in ("pure", "element", "link", "key")}
    # (the judge reads digits that are not divided as one value)
    told = judged([(company + reference, element.partition("(8011)")[0]) for (company, reference, _), element in zip(rows, found["element"])])
    wanted = [further_forms(scheme, parts, digit) for parts, (digit, _) in zip(rows, told)]
    for at, form in enumerate(found):
        for word, texts, text, back in zip(words, wanted, found[form], answers(program, found[form], "--to", "hex", *unsaid)):
            yield f"the form {form} of {word}: {text}", text == texts[at]
            yield f"the word of {text}: {back}", back == word
    for element, (_, values) in zip(found["element"], told):
        value = element.partition(")")[2].partition("(8011)")[0]
        yield f"the values of {element}: {values}", values == {IDENTIFIERS[scheme]: value}
    forms = ("tag", "pure", "element", "link", "hex", "key")
    for tag, texts, word, line in zip(tags, wanted, words, answers(program, [texts[3] for texts in wanted], "--json", *unsaid)):
        yield f"the object of {texts[3]}: {line}", json.loads(line) == dict(zip(forms, (tag, *texts[:3], word, texts[3])))
    done = run(program, "epc", "--forms", *unsaid, wanted[0][1], input=b"")
    lines = zip(forms, (tags[0], *wanted[0][:3], words[0], wanted[0][3]))
    yield f"the forms of {wanted[0][1]}", done.stdout.decode() == "".join(f"{form} {text}\n" for form, text in lines)
    if scheme in ("gsrnp", "sgcn"):
        end = len(f"({IDENTIFIERS[scheme]})") + len("".join(rows[0][:2]))
        wrong = wanted[0][1][:end] + str((int(told[0][0]) + 1) % 10) + wanted[0][1][end + 1 :]
        yield f"a wrong key {wrong}", answers(program, [wrong], "--to", "hex", *unsaid) == [f"! Check {told[0][0]}"]
    with tempfile.NamedTemporaryFile("w") as table:
        table.write(f"{rows[0][0]} {company_digits}\n")
        table.flush()
        by_table = answers(program, [wanted[0][1]], "--to", "hex", "--filter", "3", "--prefixes", table.name, *ALL_SCHEMES)
    yield f"the word of {wanted[0][1]} by a table: {by_table}", by_table == words[:1]
    if company_digits == 7:
        unknown = answers(program, [wanted[0][1]], "--to", "hex", *ALL_SCHEMES)
        yield f"a key of which it is not known how long its company prefix is: {unknown}", unknown == ["! Prefix"]


def further_listings(program, scheme, tags, keys):
    """Yields whether `show --keys --schemes all` puts the keys of a further scheme after the EPCs of a report, and `show --keys` none, and
    whether `encode --keys --schemes all` reads that, and refuses another key."""
    head = "0 RO_ACCESS_REPORT 1 1\n"
    listing = head + "".join(f"1 TagReportData\n2 EPC-96 {tag}\n" for tag in tags)
    labelled = head + "".join(f"1 TagReportData\n2 EPC-96 {tag}\t{key}\n" for tag, key in zip(tags, keys))
    stream = run(program, "encode", *ALL_SCHEMES, input=listing.encode()).stdout
    shown = run(program, "show", "--keys", *ALL_SCHEMES, input=stream).stdout.decode()
    yield f"the keys of a listing of {scheme}", shown == labelled
    yield f"a listing of {scheme} among the seven schemes", b"\t" not in run(program, "show", "--keys", input=stream).stdout
    back = run(program, "encode", "--keys", *ALL_SCHEMES, input=labelled.encode()).stdout
    yield f"the stream of a listing of {scheme} with keys", (back, back[:2]) == (stream, b"\x04\x3d")
    wrong = labelled.replace(keys[0], keys[0][:-1] + str((int(keys[0][-1]) + 1) % 10), 1)
    done = run(program, "encode", "--keys", *ALL_SCHEMES, input=wrong.encode())
    yield f"a wrong key in a listing of {scheme}: {done.stderr}", (done.stdout, done.stderr, done.returncode) == (b"", b"llrp: line 3: Epc Key\n", 1)


def further_inventories(program, scheme, tags, keys):
    """Yields whether `inventory --json --keys --schemes all` prints the keys of a further scheme as the last members of the tags that a simulated
    reader sees, and without `--schemes all` none."""
    texts = [f"urn:epc:raw:96.x{word}" for word in answers(program, tags, "--to", "hex", *ALL_SCHEMES)]
    parts = [key.split(" ") for key in keys]
    wanted = [
        [("epc", tag), ("antenna", 1), ("rssi", -60), (name, number), *(("serial", it) for it in serial)]
        for tag, (name, number, *serial) in zip(tags, parts)
    ]
    yield f"the keys of an inventory of {scheme}", inventory(program, texts, *ALL_SCHEMES) == [*wanted, *totals(tags)]
    wanted = [[("epc", text), ("antenna", 1), ("rssi", -60)] for text in texts]
    yield f"an inventory of {scheme} among the seven schemes", inventory(program, texts) == [*wanted, *totals(tags)]


def further_labels(program, scheme, company_digits):
    """Yields whether listings and inventories have the keys of random EPCs of a further scheme, as their parts and the judge say."""
    rows = [further_parts(scheme, company_digits) for _ in range(EACH // 7 + 1)]
    tags = [f"urn:epc:tag:{scheme}-96:3.{'.'.join(part for part in parts if part is not None)}" for parts in rows]
    told = judged([(company + reference, "") for company, reference, _ in rows])
    keys = [further_forms(scheme, parts, digit)[3] for parts, (digit, _) in zip(rows, told)]
    yield from further_listings(program, scheme, tags, keys)
    yield from further_inventories(program, scheme, tags, keys)


def supplier_word(value, six, serial):
    """Returns the digits of the word of USDoD-96 that a filter value, six characters and a serial number make."""
    return f"{0x2F << 88 | value << 84 | int.from_bytes(six.encode('latin-1'), 'big') << 36 | serial:024X}"


def suppliers(program):
    """Yields whether words of USDoD-96 are those of their tag URIs and pure identities, have no key, and fail at the first wrong character of
    a code, and whether a text with such a code is refused."""
    named, asked, wrong = [], [], []
    for _ in range(EACH):
        value, serial = random.randrange(16), random.choice([0, 2**36 - 1, random.randrange(2**36)])
        code = "".join(random.choices(CODE, k=random.choice([5, 6])))
        six = code.rjust(6)
        place = random.randrange(6)
        other = random.choice([chr(it) for it in range(256) if chr(it) not in CODE and (place, it) != (0, 32)])
        named.append((f"urn:epc:tag:usdod-96:{value}.{code}.{serial}", supplier_word(value, six, serial)))
        asked.append((supplier_word(value, six[:place] + other + six[place + 1 :], serial), 12 + 8 * place))
        character = random.choice("IOabz-")
        wrong.append(f"urn:epc:tag:usdod-96:{value}.{code[:2]}{character}{code[3:]}.{serial}")
    texts, words = [text for text, _ in named], [word for _, word in named]
    pure = ["urn:epc:id:usdod:" + text.partition(":usdod-96:")[2].partition(".")[2] for text in texts]
    rows = zip(texts, words, answers(program, texts, "--to", "hex", *ALL_SCHEMES), answers(program, words, "--to", "tag", *ALL_SCHEMES))
    for text, word, found, back in rows:
        yield f"the word of {text}: {found}", found == word
        yield f"the text of {word}: {back}", back == text
    for word, found in zip(words, answers(program, words, "--to", "key", *ALL_SCHEMES)):
        yield f"the form key of {word}: {found}", found == "! NoKey"
    for word, text, found in zip(words, pure, answers(program, words, "--to", "pure", *ALL_SCHEMES)):
        yield f"the form pure of {word}: {found}", found == text
    # (a pure identity is read with a filter value of three bits)
    for word, text, found in zip(words, pure, answers(program, pure, "--to", "hex", "--filter", "5", *ALL_SCHEMES)):
        yield f"the word of {text}: {found}", found == f"2F5{word[3:]}"
    for text, other, word, found in zip(texts, pure, words, answers(program, texts, "--json", *ALL_SCHEMES)):
        yield f"the forms of {text}: {found}", json.loads(found) == {"tag": text, "pure": other, "hex": word}
    for (word, bit), found in zip(asked, answers(program, [word for word, _ in asked], "--to", "tag", *ALL_SCHEMES)):
        yield f"the fault of {word}: {found}", found == f"urn:epc:raw:96.x{word}\tCode {bit}"
    for text, found in zip(wrong, answers(program, wrong, "--to", "hex", *ALL_SCHEMES)):
        yield f"a wrong code in {text}: {found}", found == "! Code"
    done = run(program, "epc", "--forms", *ALL_SCHEMES, words[0], input=b"")
    yield f"the forms of {words[0]}", done.stdout.decode() == f"tag {texts[0]}\npure {pure[0]}\nhex {words[0]}\n"


def run(program, *words, input):
    """Runs a command over octets."""
    return subprocess.run([program, *words], input=input, capture_output=True, timeout=60)


def checks(program):
    """Yields whether each key is the one that its tag URI and the judge say, and is read back."""
    for scheme, (_, _, start, mark) in SCHEMES.items():
        for company_digits in range(6, 13):
            tags = list(tags_of(scheme, company_digits))
            texts = [tag for tag, _, _ in tags]
            elements, words = (answers(program, texts, "--to", form) for form in ("element", "hex"))
            # (the judge has no rule for a serial number directly after the check digit)
            asked = [(front, element if scheme in ("sgtin", "sscc") else "") for (_, front, _), element in zip(tags, elements)]
            told = judged(asked)
            yield from listings(program, scheme, tags, told)
            yield from inventories(program, scheme, tags, told)
            found = zip(tags, elements, words, told, words_of(program, tags, elements, company_digits))
            for (tag, front, number), element, word, (digit, values_told), back in found:
                yield f"the key of {tag}: {element}", element == start + front + digit + (mark + number if number else "")
                values = {start[1:3]: front + digit, **({"21": number} if number else {})}
                yield f"the values of {element}: {values_told}", not values_told or values_told == values
                yield f"the word of {element}", word == back
            yield from objects(program, company_digits, elements, told)
    for scheme in IDENTIFIERS:
        for company_digits in range(6, 13):
            yield from further(program, scheme, company_digits)
            yield from further_labels(program, scheme, company_digits)
    yield from suppliers(program)


def words_given():
    """Returns the program and the seed that the script's words name, or where they have none the crate's and a new one."""
    parser = argparse.ArgumentParser()
    parser.add_argument("--seed", type=int, default=random.randrange(2**32))
    parser.add_argument("program", nargs="?", default=built("llrp"))
    given = parser.parse_args()
    return os.path.abspath(given.program), given.seed


def main():
    program, seed = words_given()
    print(f"the seed is {seed}: tests/keys.py --seed {seed}")
    random.seed(seed)
    return finish_results(list(checks(program)), LEAST)


if __name__ == "__main__":
    sys.exit(main())
