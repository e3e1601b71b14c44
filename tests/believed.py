#!/usr/bin/env python3
"""Which definitions of crates/*/specs have to be believed, counted from the contracts that README's promises rest on.

A definition is believed if one of these contracts reaches it, itself or by other definitions. It stands in specs/, or in specs/Calls/ where
only a contract reaches it that a promise rests on besides, or one on the way from words to calls. What only other public contracts reach
stands in specs/Calls/, and what no public contract reaches in specs/Private/.

    tests/believed.py           prints what each promise rests on; fails where a module stands in the wrong folder, where
                                docs/believe.md and README.md state other numbers, or docs/promises.md a clause that is not there
    tests/believed.py --moves   prints the definitions that stand in the wrong folder, for each module and folder
"""

import pathlib
import re
import sys

from parts.counting import finish_results, text_of
from parts.definitions import Tree, clauses_of, exports_of
from parts.repository import TOP

# How many cases there are.
LEAST = 980
CALLS, PRIVATE = "Calls", "Private"

# Its crates came last: what only it rests on may stand in specs/Calls/ of a crate below them.
KEYS = "11 keys"

# The contracts of each promise of README, with the clauses where not all of them count. Promise 1 has none: a call returns
# because the toolchain proves it of each call.
PROMISES = {
    "2 words": "tag_epc::Epc::from_word tag_epc::Epc::to_word tag_epc::laws::one_word_one_epc tag_epc::laws::one_word_fault",
    "3 texts": "tag_uri::text_of_word tag_uri::word_of_text tag_uri::laws::one_text tag_uri::laws::one_fault",
    "4 frames": "llrp_tree::decode_frame llrp_tree::decode_frame_in llrp_tree::encode_into llrp_tree::laws::frames_apart",
    "5 show": "llrp_listing::run_show llrp_listing::run_show_in llrp_json::run_show_json llrp_stream::laws::one_listing",
    "6 encode": "llrp_listing::run_encode llrp_listing::run_encode_in llrp_listing::laws::prints_back llrp_json_read::run_encode_json"
                " llrp_json_read::laws::one_message llrp_json_read::laws::refused_says_none"
                " llrp_json_read::laws::prints_back",
    "7 decoder": "llrp_stream::Decoder::new llrp_stream::Decoder::new_in llrp_stream::Decoder::feed llrp_stream::Decoder::finish"
                 " llrp_stream::laws::pieces_are_the_stream llrp_stream::Decoder::held/weight/within/raw",
    "8 both ends": "llrp_endpoints::run_serve llrp_endpoints::run_inventory llrp_endpoints::run_loop",
    "9 agreement": "llrp_endpoints::laws::ends_agree",
    "10 C": "llrp_c::llrp_text_of_word llrp_c::llrp_word_of_text llrp_c::llrp_list llrp_c::llrp_encode llrp_c::llrp_list_all"
            " llrp_c::llrp_encode_all llrp_c::llrp_list_json llrp_c::llrp_list_json_all llrp_c::llrp_encode_json llrp_c::llrp_encode_json_all llrp_c::llrp_frame_length llrp_c::llrp_name"
            " llrp_c::llrp_next llrp_c::llrp_next_all llrp_c::llrp_next_json llrp_c::llrp_next_json_all llrp_c::llrp_tags",
    KEYS: "tag_keys::print_id tag_keys::parse_id tag_keys::print_key tag_keys::parse_key tag_keys::digits_from_company"
               " tag_keys::laws::one_check_digit"
               " tag_keys::laws::slips_are_refused tag_keys::laws::one_id_uri tag_keys::laws::one_key_text tag_keys::laws::one_fault"
               " tag_schemes::numbers_of tag_schemes::word_of tag_schemes::supplier_of tag_schemes::word_of_supplier tag_schemes::print_further"
               " tag_schemes::print_supplier tag_schemes::text_in_all tag_schemes::word_in_all"
               " tag_schemes::fault_in_all tag_schemes::laws::sets_are_apart tag_schemes::laws::one_further_epc tag_schemes::laws::one_text_in_all"
               " tag_schemes::laws::one_word_fault_in_all"
               " tag_scheme_keys::print_id_in tag_scheme_keys::parse_id_in tag_scheme_keys::print_key_in tag_scheme_keys::parse_key_in"
               " tag_scheme_keys::from_company_in tag_scheme_keys::id_in_front tag_scheme_keys::print_supplier_id"
               " tag_scheme_keys::parse_supplier_id tag_scheme_keys::supplier_id_in_front tag_scheme_keys::laws::one_supplier_id"
               " tag_scheme_keys::laws::one_id_uri_in tag_scheme_keys::laws::one_key_text_in"
               " tag_forms::text_in tag_forms::word_in tag_forms::form_of tag_forms::push_answer tag_forms::push_forms"
               " tag_forms::form_in_all tag_forms::read_in_all tag_forms::AllFault::name tag_forms::push_forms_in_all tag_forms::push_refusal_in_all"
               " tag_forms::push_object_answer tag_forms::push_wanted tag_forms::Company::digits_of"
               " tag_forms::TextList::take tag_forms::TextList::end tag_forms::Prefixes::add tag_forms::Prefixes::company_digits"
               " tag_forms::laws::one_text_in_form tag_forms::laws::one_word_in_form tag_forms::laws::one_fault_in_form"
               " tag_forms::laws::one_form_in_all"
               " llrp_keys::run_forms llrp_keys::run_answer llrp_keys::run_list llrp_keys::run_epc_in_all llrp_keys::read_prefixes"
               " llrp_keys::named_key_of llrp_labels::label_tags"
               " llrp_labels::label_text llrp_labels::plain_text llrp_labels::list_labelled llrp_labels::run_show_labelled"
               " llrp_labels::read_plain llrp_labels::laws::one_labelled_line llrp_labels::laws::keys_follow_lines"
               " llrp_labels::laws::labels_come_off"
               " llrp_c::llrp_forms llrp_c::llrp_word_of_key llrp_c::llrp_forms_in_all llrp_c::llrp_word_of_key_in_all llrp_c::llrp_text_in_all"
               " llrp_c::llrp_word_in_all",
}

# What a promise rests on besides: `sim --all`, clients without an end, and what makes a script and a plan.
BESIDES = {
    "8 both ends": "llrp_general::run_serve_among llrp_endpoints::run_lasting llrp_endpoints::Script::parse llrp_endpoints::standard_plan"
                   " llrp_endpoints::checked_plan llrp_endpoints::Plan::parse llrp_endpoints::Plan::of llrp_endpoints::Plan::cleaning"
                   " llrp_endpoints::Plan::renewing llrp_endpoints::Plan::removing llrp_endpoints::Plan::saying"
                   " llrp_endpoints::Plan::keeping llrp_endpoints::Plan::awaiting llrp_endpoints::Plan::in_form llrp_endpoints::Plan::in_set"
                   " llrp_endpoints::Plan::passing_over llrp_endpoints::run_watching llrp_endpoints::Watcher::turn llrp_endpoints::marked_lines"
                   " llrp_endpoints::TagLister::new llrp_endpoints::TagLister::feed llrp_json::push_parameters",
}

# From the words of a command to the calls of the promises, and to their exit statuses and error lines; captures are beside the promises.
WORDS = "words to calls"
ALL = "1 to 11, and words to calls"
# What other public contracts reach beside these: captures, `ask`, `access`, `watch`, `sim --clock` and calls of the libraries.
OTHERS = "what other contracts add"
COMMANDS = {
    WORDS: "llrp_commands::run_command/runs/errors"
           " llrp_words::network_command llrp_commands::write_refusal llrp::plan_of llrp::read_plan"
           " llrp::made_plan llrp::watch_plan llrp_endpoints::Script::read",
}

# What a caller only hands from one call to the next, a relation and a value that no believed definition looks into: a constructor gives
# one, and the other calls ask for it. Whatever it says, their contracts say the same of the octets, so what it is made of is not believed.
HANDED_ON = {("llrp_stream", "Decoding", "Stands"), ("llrp_stream", "Decoding", "StandsIn"), ("llrp_stream", "Progress", "Progress"),
             ("llrp_endpoints", "TagListing", "HasTags")}


def contract_of(tree, name):
    """A contract of the table: all of it, or the clauses that are named after it."""
    name, *clauses = name.split("/")
    imports, text = tree.contracts[name]
    if clauses:
        parts = re.split(r"(?m)^ *(?=(?:requires|ensures) )", text)[1:]
        text = "\n".join(part for part in parts if part.split()[1] in clauses)
    return imports, text


def contracts_of(tree, titles, *tables):
    """The contracts that tables give for some titles."""
    names = " ".join(table.get(title, "") for title in titles for table in tables).split()
    return [contract_of(tree, name) for name in names]


class Count:
    """How many definitions these are, and of how many lines."""

    def __init__(self, tree, definitions):
        self.definitions = definitions
        self.lines = sum(len(d.lines) for d in self.definitions)
        self.files = {(d.crate, d.module) for d in self.definitions}
        self.file_lines = sum(tree.modules[file].text.count("\n") for file in self.files)

    def row(self, title):
        """The row of docs/believe.md."""
        return f"| {title} | {len(self.definitions):,} | {self.lines:,} | {len(self.files)} | {self.file_lines:,} |"

    def words(self):
        """How README says it."""
        return f"{len(self.definitions):,} definitions of {self.lines:,} lines"


def count_of(tree, titles, *tables):
    """A count of what is believed for some promises, or for the way from words to calls."""
    return Count(tree, tree.reached_from(contracts_of(tree, titles, *(tables or (PROMISES, BESIDES, COMMANDS))), HANDED_ON))


def counts(tree):
    """A count of each promise, of those up to the fourth, the sixth and the last, of these with the way from words to calls, and of what other
    public contracts reach."""
    titles = list(PROMISES)
    found = {title: count_of(tree, [title]) for title in [*titles, WORDS]}
    found |= {f"1 to {last}": count_of(tree, titles[:last - 1]) for last in (4, 6, 11)}
    believed = count_of(tree, [*titles, WORDS])
    return found | {ALL: believed, OTHERS: Count(tree, tree.reached_from(tree.public, HANDED_ON) - believed.definitions)}


def places(tree):
    """Where each definition may stand, first where it belongs: nothing for specs/ itself, else the folder."""
    promised, believed = count_of(tree, PROMISES, PROMISES).definitions, count_of(tree, [*PROMISES, WORDS]).definitions
    others = count_of(tree, [title for title in PROMISES if title != KEYS], PROMISES).definitions
    public = tree.reached_from(tree.public, HANDED_ON)

    def folders(definition):
        if definition in others:
            return [""]
        if definition in promised:
            return ["", CALLS]
        if definition in believed:
            return [CALLS, ""]
        return [CALLS] if definition in public or definition.key() in HANDED_ON else [PRIVATE]

    return {d: folders(d) for module in tree.modules.values() for d in module.definitions.values()}


def moves(tree):
    """For each module, the definitions that stand in the wrong folder, by the folder that they belong to."""
    found = {}
    for definition, folders in places(tree).items():
        module = tree.modules[definition.crate, definition.module]
        if module.folder() not in folders:
            found.setdefault((module.crate, module.name), {}).setdefault(folders[0], []).append(definition)
    return found


def print_moves(tree):
    """Prints the moves, a line for each module and folder."""
    for (crate, name), folders in sorted(moves(tree).items()):
        for folder, definitions in sorted(folders.items()):
            whole = len(definitions) == len(tree.modules[crate, name].definitions)
            what = "all" if whole else " ".join(d.name for d in definitions)
            print(f"crates/{crate}/specs/{name.replace('.', '/')}.antt -> specs/{folder}: {what}")


def private_names(tree, definitions):
    """The types and constants of code that these definitions name and that no other crate may name: a reader would have to read the code."""
    named = set().union(*map(tree.code_named_in, definitions))
    exports = {crate: exports_of(pathlib.Path(TOP) / "crates" / crate / "src") for crate, _, _ in named}
    return sorted(f"{crate}::{module}::{name}" for crate, module, name in named if not exports[crate](module, name))


def results(tree, count):
    """What is compared of the folders and the pages, and whether it is right."""
    wrong = moves(tree)
    for crate, name in tree.modules:
        yield f"{crate}: {name} has definitions for another folder (--moves)", (crate, name) not in wrong
    private = private_names(tree, count[ALL].definitions)
    yield f"believed definitions name what is private in the code: {' '.join(private)}", not private
    page, readme = text_of("docs/believe.md"), " ".join(text_of("README.md").split())
    for title in count:
        yield f"docs/believe.md: no row {count[title].row(title)}", count[title].row(title) in page.split("\n")
    for title in ("1 to 4", "1 to 11", ALL):
        yield f"README.md: promises {title}: not {count[title].words()}", count[title].words() in readme
    believed = {tree.modules[file].subject() for file in count[ALL].files}
    subjects = {module.subject() for module in tree.modules.values()}
    for name in sorted(subjects):
        is_named = f"`{name}`" in page
        if name in believed:
            yield f"docs/believe.md: {name} is believed, and not named", is_named
        else:
            yield f"docs/believe.md: {name} is named, and not believed", not is_named


def clauses_named(tree, names):
    """The clauses of all functions that a page calls by one of these names."""
    found = set()
    for path, (_, text) in tree.contracts.items():
        if any(path == name or path.endswith(f"::{name}") for name in names):
            found |= clauses_of(text)
    return found


def results_of_clauses(tree):
    """Whether each clause that a row of docs/promises.md names is one of its call's contract, or of the call that is named before it."""
    calls = []
    for row in re.findall(r"(?m)^\| (.*?) \| (.*?) \| .*\|$", text_of("docs/promises.md")):
        first, second = (re.findall(r"`([\w:]+)`", cell) for cell in row)
        calls = first or calls
        named = [it for it in second if "::" in it]
        for clause in (it for it in second if it[0].islower() and "::" not in it):
            yield f"docs/promises.md: {calls} has no clause {clause}", clause in clauses_named(tree, named or calls)


def crates_of(*headings):
    """The crates below some headings of crates.txt."""
    parts = re.findall(r"(?ms)^# == (.*?)\n(.*?)(?=^# ==|\Z)", text_of("crates.txt"))
    return [crate for heading, part in parts if heading.startswith(headings) for crate in re.findall(r"(?m)^(\w+)[^:\n]*:", part)]


def sizes():
    """How many crates the product has, and how many lines of code, definitions and proofs and how many planted mistakes."""
    folders = [pathlib.Path(TOP) / "crates" / crate for crate in crates_of("Product", "What is built")]

    def lines(part, ending):
        return sum(path.read_text().count("\n") for folder in folders for path in (folder / part).rglob(f"*{ending}"))

    mistakes = sum(len(list(folder.glob("must-fail/*.edit"))) for folder in folders)
    return len(folders), lines("src", ".rt"), lines("specs", ".antt"), lines("proofs", ".antt"), mistakes


def results_of_sizes(count):
    """Whether README's table of sizes says what is there, each within a tenth, and what has to be believed."""
    rows = r"code, in (\d+) crates \| ([\d,]+) \|\n\| definitions \| ([\d,]+), of which ([\d,]+) .*\n\| proofs \| ([\d,]+) \|\n.*\| (\d+) mistakes"
    crates, code, definitions, believed, proofs, mistakes = (int(it.replace(",", "")) for it in re.search(rows, text_of("README.md")).groups())
    for stated, found in zip((crates, code, definitions, proofs, mistakes), sizes()):
        yield f"README.md: the product has {found}, and not about {stated}", abs(stated - found) * 10 <= found
    yield f"README.md: {count[ALL].lines} lines have to be believed", believed == count[ALL].lines


def main():
    tree = Tree(pathlib.Path(TOP))
    if sys.argv[1:] == ["--moves"]:
        print_moves(tree)
        return 0
    count = counts(tree)
    print("| promises | definitions | lines | files | lines of files |")
    for title in count:
        print(count[title].row(title))
    return finish_results([*results(tree, count), *results_of_sizes(count), *results_of_clauses(tree)], LEAST)


if __name__ == "__main__":
    sys.exit(main())
