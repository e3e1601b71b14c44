"""The checks of llrp_epc.conform as tests of pytest: pytest --pyargs llrp_epc.test_conform --llrp HOST"""
import warnings

import pytest

from .conform import CHECKS, Bench, Check, shown


@pytest.mark.parametrize("one", CHECKS, ids=[one.name for one in CHECKS])
def test_reader(llrp_bench: Bench, one: Check) -> None:
    """Runs a check: a FAIL fails the test, a SKIP skips it, and a NOTE is a warning."""
    result = llrp_bench.run(one)
    if result.verdict == "SKIP":
        pytest.skip(result.reason)
    if result.verdict == "FAIL":
        pytest.fail(shown(result), pytrace=False)
    if result.verdict == "NOTE":
        warnings.warn(shown(result), stacklevel=1)
