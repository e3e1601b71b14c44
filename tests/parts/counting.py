"""What the scripts share: the text of a file of the repository, a block of a document, and the last line of a script."""
import os
import re

from parts.repository import TOP


def text_of(name):
    with open(os.path.join(TOP, name), encoding="utf-8") as file:
        return file.read()


def snippet(name, heading):
    """Returns the indented block of a document after a line."""
    return re.sub(r"(?m)^    ", "", re.search(r"\n\n((?:    .*\n|\n(?=    ))+)", text_of(name).split(heading)[1])[1])


def finish(passed, failed, least):
    """Prints how many cases passed and failed, and returns the status: 1 where one failed, or where fewer ran than there are."""
    if passed + failed < least:
        print(f"WRONG: {passed + failed} cases ran in place of {least} or more")
        failed += 1
    print(f"{passed} passed, {failed} failed")
    return 1 if failed else 0


def finish_results(results, least):
    """Prints what is not as it should be, of pairs of what was compared and whether it is right, and finishes."""
    failed = [what for what, is_right in results if not is_right]
    for what in failed:
        print(f"WRONG: {what}")
    return finish(len(results) - len(failed), len(failed), least)
