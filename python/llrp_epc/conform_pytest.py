"""A plugin of pytest for llrp_epc.test_conform: the options --llrp and --llrp-seconds. In the wheel it is an entry point of pytest11, so each
run of pytest loads it: it imports the checks only where they are wanted."""
from typing import TYPE_CHECKING, Iterator

import pytest

if TYPE_CHECKING:
    from .conform import Bench


def pytest_addoption(parser: pytest.Parser) -> None:
    """Adds the options."""
    parser.addoption("--llrp", metavar="HOST[:PORT]", help="the reader that llrp_epc.test_conform checks")
    parser.addoption("--llrp-seconds", type=float, default=5, help="the longest wait for an answer")


@pytest.fixture(scope="session")
def llrp_bench(request: pytest.FixtureRequest) -> "Iterator[Bench]":
    """Gives the reader of --llrp; without it the tests are skipped."""
    from .conform import Bench, address_of

    reader = request.config.getoption("--llrp")
    if not reader:
        pytest.skip("no --llrp HOST")
    with Bench(*address_of(reader), request.config.getoption("--llrp-seconds")) as bench:
        yield bench
