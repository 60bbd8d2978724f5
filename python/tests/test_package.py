"""The package as a whole: its version, its help, and the examples in it."""

import copy
import doctest
import pickle
import pydoc
import re
from importlib.metadata import metadata
from pathlib import Path

import pytest

import kuldebiq
from kuldebiq import _errors, _keys, _map, _points
from kuldebiq._library import lib

HERE = Path(__file__).resolve().parent
HEADER = HERE.parents[1] / "include" / "kuldebiq.h"


def test_the_version_is_the_headers():
    assert metadata("kuldebiq")["Version"] == kuldebiq.__version__
    if HEADER.exists():
        text = re.search(r'KULDEBIQ_VERSION_TEXT "(.*)"', HEADER.read_text()).group(1)
        assert kuldebiq.__version__ == text


def test_the_package_says_what_it_needs():
    about = metadata("kuldebiq")
    assert about["Requires-Python"] == ">=3.9" and "MIT" in about["License"]
    assert any(line.startswith("numpy") for line in about.get_all("Requires-Dist"))
    assert (Path(kuldebiq.__file__).parent / "py.typed").exists()


@pytest.mark.parametrize("module", [kuldebiq, _keys, _map, _points])
def test_examples_in_docs(module):
    assert doctest.testmod(module).failed == 0


def test_the_lines_of_the_readme_run(capsys):
    pytest.importorskip("pandas")
    text = (HERE.parent / "README.md").read_text()
    lookups, points, _ = re.findall(r"```python\n(.*?)```", text, re.DOTALL)
    names = {}
    exec(lookups, names)
    assert capsys.readouterr().out.startswith("500001 601 0.")
    exec(points, names)
    x, y = names["inside"].min(), names["inside"].max()
    assert [200_000, 300_000] <= list(x) and y["x"] <= 250_000 and y["y"] <= 340_000
    assert len(names["rows"]) == 3 and "distance" in capsys.readouterr().out


def test_help_begins_with_both():
    page = pydoc.plain(pydoc.render_doc(kuldebiq))
    assert page.index("SortedKeys") < page.index("Map") < page.index("PACKAGE CONTENTS")


def test_all_that_is_public_is_documented():
    for name in set(kuldebiq.__all__) - {"__version__"}:
        thing = getattr(kuldebiq, name)
        assert thing.__doc__
        for part, value in vars(thing).items() if isinstance(thing, type) else ():
            if not part.startswith("_") and callable(value):
                assert value.__doc__, f"{name}.{part}"


def test_both_are_pickled_and_copied():
    keys, made = kuldebiq.SortedKeys([2, 3, 5]), kuldebiq.Map({3: 1, 2: 5}, levels=3)
    for again in (pickle.loads(pickle.dumps(keys)), copy.deepcopy(keys)):
        assert list(again) == [2, 3, 5] and again.position(4) == 2
    for again in (pickle.loads(pickle.dumps(made)), copy.deepcopy(made), made.copy()):
        again[9] = 1
        assert again == {2: 5, 3: 1, 9: 1} and again.levels == 3
    assert made == {2: 5, 3: 1}


def test_each_status_is_an_error_of_python():
    for status, error in [(lib.KULDEBIQ_NO_MEMORY, MemoryError), (lib.KULDEBIQ_FULL, OverflowError),
                          (lib.KULDEBIQ_TOO_MANY_KEYS, OverflowError), (77, ValueError),
                          (lib.KULDEBIQ_TOO_LITTLE_ROOM, ValueError)]:
        refusal = _errors.refusal(status, 5)
        assert isinstance(refusal, error) and isinstance(refusal, kuldebiq.Refused)
        assert (refusal.status, refusal.number) == (status, 5) and str(refusal)


def test_refusals_are_errors_of_python():
    refusals = []
    for call in (lambda: kuldebiq.SortedKeys([2, 1]), lambda: kuldebiq.Map()[5],
                 lambda: kuldebiq.SortedKeys([1]).position(-1)):
        with pytest.raises(kuldebiq.Refused) as refused:
            call()
        refusals.append(refused.value)
    for refusal, error in zip(refusals, (ValueError, KeyError, OverflowError)):
        again = pickle.loads(pickle.dumps(refusal))
        assert isinstance(again, error) and again.args == refusal.args
        assert again.status == refusal.status and again.number == refusal.number
