"""Reads the rows of docs/tables.md, those of the whole of LLRP 1.1 and those of the profile, and compares them with tests/llrp11.tsv; and the
partition tables with the definition of layouts."""
import re

from parts.counting import text_of
from parts.standard import LINES, ROWS, Field, Group, groups_of, is_looser

FORMS = {"Messages": "message", "Parameters of type and value": "TV", "Parameters of type, length and value": "TLV"}
# What a group of the page is called, with the least and most of it, and whether each of its names is a group of its own.
GROUPS = (
    (r"at most one each of (.*)", 0, 1, True),
    (r"at most one (.*)", 0, 1, True),
    (r"one that is (.*)", 1, 1, False),
    (r"one or more, each (.*)", 1, None, False),
    (r"any number, each (.*)", 0, None, False),
    (r"(.*) in any number", 0, None, True),
    (r"(.*) once or more", 1, None, True),
    (r"(.*)", 1, 1, True),
)


def sections():
    """The rows of each table under the page's heading, by the table's own heading."""
    whole = text_of("docs/tables.md").split("\n## All of LLRP 1.1\n")[1].split("\n## ")[0]
    for part in whole.split("\n### ")[1:]:
        heading, *lines = part.split("\n")
        yield heading, [[it.strip() for it in line.strip("|").split("|")] for line in lines if line.startswith("|")][2:]


def field_of(text):
    form = re.fullmatch(r"(\w+) (\d+)(?: \(0 to (\d+)\))?(, signed)?", text)
    name, width, greatest, is_signed = form.groups()
    most = 0 if name == "reserved" else int(greatest or 2 ** int(width) - 1)
    return Field("R" if name == "reserved" else name, int(width), most, bool(is_signed))


def groups_in(text):
    """The groups of a row's last column: for each the names of its members, and its bounds."""
    for part in filter(None, text.split("; ")):
        names, least, most, are_alone = next((found[1], *it[1:]) for it in GROUPS if (found := re.fullmatch(it[0], part)))
        names = re.split(r", | and | or ", names)
        yield from ([Group((name,), least, most) for name in names] if are_alone else [Group(tuple(names), least, most)])


def said(form, cells):
    """What the page says of a row: its number, its name, its fields, its tail and its groups."""
    number, name, fields = int(cells[0]), cells[1], cells[2].removesuffix(", data")
    if form == "TV":
        width, is_signed = int(fields.split(",")[0]), "signed" in fields
        return number, name, (Field(name, width, 2**width - 1, is_signed),), None, []
    found = tuple(map(field_of, re.split(r", (?!signed)", fields))) if fields else ()
    tail = cells[3] or None if form == "TLV" else "data" if fields != cells[2] else None
    return number, name, found, tail, plain(list(groups_in(cells[-1])))


def named(group):
    names = {row.number: row.name for row in ROWS if row.form != "message"}
    return group._replace(members=tuple(names[it] for it in group.members))


def plain(groups):
    """The groups in some order, and a group with no bounds as one for each of its members, which says the same."""
    alone = [group for group in groups if group.least == 0 and group.most is None]
    others = [group._replace(members=tuple(sorted(group.members))) for group in groups if group not in alone]
    return sorted([*others, *(Group((name,), 0, None) for group in alone for name in group.members)], key=str)


def wanted(row):
    """What the page has to say of a row. The field of a parameter of type and value has the parameter's name there."""
    line = LINES[row]
    fields = tuple(it._replace(name=row.name) for it in line.fields) if row.form == "TV" else line.fields
    if row.name == "EPCData":
        fields = (fields[0]._replace(name="BitCount"),)
    return row.number, row.name, fields, line.tail, plain(list(map(named, groups_of(row))))


def compared():
    """Yields a name of each row, and whether the page says of it what it has to say."""
    tables = dict(sections())
    looser = {name for cells in tables["Where these rows are looser than the standard"] for name in cells[1].split(", ")}
    wanted_looser = {row.name for row in ROWS if is_looser(row)}
    yield f"docs/tables.md, rows that are looser: {looser ^ wanted_looser}", looser == wanted_looser
    for heading, form in FORMS.items():
        found = {cells[0]: said(form, cells) for cells in tables[heading]}
        rows = [row for row in ROWS if row.form == form]
        yield f"docs/tables.md, {heading}: {len(found)} rows", len(found) == len(tables[heading]) == len(rows)
        for row in rows:
            yield f"docs/tables.md, {row.name}", found.get(str(row.number)) == wanted(row)


# ---- the profile


PROFILE_TABLES = {"## Messages": "message", "### Type and value": "TV", "### Type, length and value": "TLV"}


def profile_field(text):
    """A field of the profile's tables. Its name may be another than the standard's, so only its form is looked at."""
    name, width, greatest = re.fullmatch(r"(\w+) (\d+)(?: \(0 to (\d+)\))?(?: \(milliseconds\))?", text).groups()
    return (int(width), 0 if name == "reserved" else int(greatest or 2 ** int(width) - 1))


def profile_fields(cell):
    """The fields in a cell of the profile's tables: the width and the greatest value of each."""
    if cell.startswith("one bit each: "):
        names, rest = cell.removeprefix("one bit each: ").split("; ")
        return [(1, 1)] * len(names.split(", ")) + [profile_field(rest)]
    cell = cell.removesuffix(", whose bits are not interpreted")
    return [profile_field(it) for it in cell.split(", ")] if cell else []


def looked_for(groups):
    """The groups in some order, and those that need a child in the order in which a missing one is looked for."""
    return plain(groups), [set(it.members) for it in groups if it.least]


def profile_rows():
    """Yields the form, the number and the name of each row of the profile's tables, with its fields, its sign, its tail and its groups in order."""
    page = text_of("docs/tables.md").split("\n## All of LLRP 1.1\n")[0]
    for heading, form in PROFILE_TABLES.items():
        table = page.split(f"\n{heading}\n")[1].split("\n| Type | Name |")[1].split("\n\n")[0]
        for line in table.split("\n")[2:]:
            number, name, *cells = [it.strip() for it in line.strip("|").split("|")]
            if form == "TV":
                width = int(cells[0].split(",")[0])
                yield form, int(number), name, [(width, 2**width - 1)], "two's complement" in cells[0], None, ([], [])
            else:
                tail = cells[1].split(":")[0] or None if form == "TLV" else None
                yield form, int(number), name, profile_fields(cells[0]), False, tail, looked_for(list(groups_in(cells[-1])))


def wanted_of_profile(row, names):
    """What the page has to say of a row of the profile: what the standard's row says, without the children that are not among these names."""
    line, groups = LINES[row], []
    for group in map(named, groups_of(row)):
        members = tuple(it for it in group.members if it in names)
        groups += [Group(members, group.least, group.most)] if members else []
    fields = [(it.width, it.greatest) for it in line.fields]
    return fields, any(it.is_signed for it in line.fields), line.tail, looked_for(groups)


def profile_compared():
    """Yields a name of each row of the profile, and whether the page says of it what the standard's row says; and whether the parts of the
    header follow one another."""
    page = text_of("docs/tables.md").split("\n## Messages\n")[1].split("\n\nAfter them")[0]
    header = [tuple(map(int, it)) for it in re.findall(r"(?m)^\| (\d+) \| (\d+) \|", page)]
    starts = [sum(width for _, width in header[:at]) for at in range(len(header) + 1)]
    yield f"docs/tables.md, the header: {header}", [start for start, _ in header] + [80] == starts and [it for _, it in header] == [3, 3, 10, 32, 32]
    found = list(profile_rows())
    names = {name for _, _, name, *_ in found}
    yield "docs/tables.md, the profile's rows", len(found) == len({it[:2] for it in found}) == 79
    for form, number, name, *cells in found:
        row = next((it for it in ROWS if (it.form, it.number, it.name) == (form, number, name)), None)
        wanted_cells = list(wanted_of_profile(row, names)) if row else None
        yield f"docs/tables.md, {name} of the profile: {cells} in place of {wanted_cells}", cells == wanted_cells


# ---- words of EPCs

LAYOUT = "crates/tag_epc/specs/Layout.antt"
# The layouts of further schemes, and the headers of all (TDS 1.13, section 14.2).
FURTHER = "crates/tag_schemes/specs/Schemes.antt"
HEADERS = {
    "SGTIN-96": "30", "SSCC-96": "31", "SGLN-96": "32", "GRAI-96": "33", "GDTI-96": "2C", "GSRN-96": "2D", "GIAI-96": "34", "GSRNP-96": "2E",
    "SGCN-96": "3F", "CPI-96": "3C",
}


def numbers_in(text):
    return [int(it) for it in re.findall(r"\d+", text)]


def layouts(source=LAYOUT):
    """Yields of each layout of a definition its name, its header, the columns of its reference, its last part's bits and whether that is zeros."""
    form = r'name = codes "([^"]*)";\s+header = 0x(\w+);\s+rows = partition_table \((.*?)\) \((.*?)\);\s+last_bits = (\d+);\s+zero_tail = (\w+);'
    for name, header, bits, digits, last, zeros in re.findall(form, text_of(source)):
        yield name.upper(), header.upper(), numbers_in(bits), numbers_in(digits), int(last), zeros == "true"


def epc_tables():
    """Returns the cells of each row of the page's tables of schemes: of the seven, of further ones, and of the forms of those."""
    page = text_of("docs/tables.md").split("\n## EPC words\n")[1].split("\n## ")[0]
    tables = [part.split("\n\n")[0].split("\n")[2:] for part in page.split("\n| Scheme |")[1:]]
    return [[[it.strip() for it in line.strip("|").split("|")] for line in table] for table in tables]


def epc_rows(rows):
    """Yields the same of each scheme of a table of the page."""
    for first, second in zip(rows[::2], rows[1::2]):
        bits, digits = ([int(it) for it in row[3:10]] for row in (first, second))
        last = [it for it in numbers_in(first[10].replace("a 1 and", "")) if it]
        yield first[0], first[1], bits, digits, last[0] if last else 0, "all zero" in first[10] or first[10] == "none"


def check_digit(digits):
    """Returns the check digit of a key (GS1 General Specifications, section 7.9): from the right, each other digit counts three times."""
    return str(-sum(int(it) * (3 if at % 2 == 0 else 1) for at, it in enumerate(reversed(digits))) % 10)


def forms_of(name, pure):
    """Returns element string, link and key of a pure identity URI of a further scheme (TDS 1.13, section 7)."""
    company, reference, *serial = pure.split(":")[-1].split(".")
    front = company + reference
    digit = check_digit(front)
    return {
        "GIAI-96": (f"(8004){front}", f"/8004/{front}", f"giai {front}"),
        "GSRNP-96": (f"(8017){front}{digit}", f"/8017/{front}{digit}", f"gsrnp {front}{digit}"),
        "SGCN-96": (f"(255){front}{digit}{''.join(serial)}", f"/255/{front}{digit}{''.join(serial)}", f"gcn {front}{digit} {''.join(serial)}"),
        "CPI-96": (f"(8010){front}(8011){''.join(serial)}", f"/8010/{front}/8011/{''.join(serial)}", f"cpi {front} {''.join(serial)}"),
    }[name]


def further_compared():
    """Yields whether the page has the layouts of the further schemes, the headers of all, the forms of the examples, and right check digits in
    each key of a fixed length that any page names."""
    seven, further, forms, *_ = epc_tables()
    for row, layout in zip(epc_rows(further), layouts(FURTHER)):
        yield f"docs/tables.md: {row} in place of {layout}", row == layout
    headers = {name: header for name, header, *_ in [*epc_rows(seven), *epc_rows(further)]}
    yield f"docs/tables.md, the headers: {headers}", headers == HEADERS
    for name, pure, *others in [[it.strip("`") for it in row] for row in forms]:
        yield f"docs/tables.md, the forms of {pure}", tuple(others) == forms_of(name, pure)
    for page in ("docs/tables.md", "docs/library.md", "docs/errors.md", "docs/client.md", "README.md"):
        for name, key in re.findall(r"\b(gtin|sscc|gsrnp?|gcn) (\d{13,18})\b", text_of(page)):
            yield f"{page}: {name} {key}", key[-1] == check_digit(key[:-1])
    page = " ".join(text_of("docs/tables.md").split())
    # (LLRP 1.1, section 17.2)
    for told in ("one bit 1, 7 bits of type, and the value", "6 reserved bits, 10 bits of type, 16 bits of length in octets, these 4 octets among them"):
        yield f"docs/tables.md: {told}", told in page


def epc_compared():
    """Yields whether the page has the layouts of the definition: each scheme, the company prefix, and that of GID-96."""
    found, wanted = list(epc_rows(epc_tables()[0])), list(layouts())
    yield "docs/tables.md, the schemes", len(found) == len(wanted) == 6
    for row, layout in zip(found, wanted):
        yield f"docs/tables.md: {row} in place of {layout}", row == layout
    page, text = text_of("docs/tables.md"), text_of(LAYOUT)
    prefix = [numbers_in(it) for it in re.search(r"partition_table bits digits = rows_of \((.*?)\) \((.*?)\)", text).groups()]
    for unit, numbers in zip(("bits", "digits"), prefix):
        shown = re.search(rf"(?m)^\| company prefix, {unit} \|(.*)\|$", page)[1]
        yield f"docs/tables.md, {unit} of the company prefix", numbers_in(shown) == numbers
    header = re.search(r"(?m)^gid_header = 0x(\w+)$", text)[1]
    widths = re.search(r"manager number of (\d+) bits, an object class of (\d+) and a serial number of (\d+)", page).groups()
    segments = re.findall(r"plain_segment (\d+)", re.search(r"(?m)^gid_segments = (.*)$", text)[1])
    yield "docs/tables.md, GID-96", f"GID-96 has header {header} (hex)" in page and list(widths) == segments[-3:]
