"""The examples of the documentation: of modules, of the extension's calls, and of README.md."""

import doctest
from pathlib import Path

import naltvigo
from naltvigo import _files, _native, _refused, _streams, _values

README = Path(__file__).resolve().parents[1] / "README.md"


def load_tests(loader, tests, pattern):
    for module in (naltvigo, _files, _refused, _streams, _values):
        tests.addTests(doctest.DocTestSuite(module, extraglobs=vars(naltvigo).copy(), optionflags=doctest.ELLIPSIS))
    # doctest does not look into the functions of an extension
    for name, call in vars(_native).items():
        if callable(call) and ">>>" in (call.__doc__ or ""):
            parsed = doctest.DocTestParser().get_doctest(call.__doc__, vars(naltvigo).copy(), name, None, None)
            tests.addTest(doctest.DocTestCase(parsed, optionflags=doctest.ELLIPSIS))
    tests.addTests(doctest.DocFileSuite(str(README), module_relative=False, optionflags=doctest.ELLIPSIS))
    return tests
