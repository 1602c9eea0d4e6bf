"""The examples of the package's documents."""

import contextlib
import doctest
import importlib
import pathlib
import re
import unittest

MODULES = ("quic_wire", "quic_wire.keylog", "quic_wire.protection")
README = pathlib.Path(__file__).parents[1] / "README.md"
REPOSITORY = pathlib.Path(__file__).parents[2]
# Each of its sections, headed by the package that it needs, has examples of its own behind those of the beginning.
WITH_OTHERS = REPOSITORY / "docs" / "PYTHON.md"
in_repository = contextlib.chdir(REPOSITORY)  # the examples name its files


def has(module):
    try:
        importlib.import_module(module)
    except ImportError:
        return False
    return True


def suite_of(text, name):
    """The examples of a text, which begin in the repository."""
    test = doctest.DocTestParser().get_doctest(text, {}, name, name, 0)
    return doctest.DocTestCase(
        test,
        optionflags=doctest.ELLIPSIS,
        setUp=lambda test: in_repository.__enter__(),
        tearDown=lambda test: in_repository.__exit__(),
    )


def sections():
    """For each package the beginning of the document and the section on it."""
    begin, *rest = re.split(r"^## (\w+)$", WITH_OTHERS.read_text(), flags=re.M)
    return {package: begin + text for package, text in zip(rest[::2], rest[1::2])}


def skipped(package):
    """For examples of a package that isn't there."""

    def skip():
        raise unittest.SkipTest(f"{package} isn't there")

    return unittest.FunctionTestCase(skip, description=package)


def load_tests(loader, tests, pattern):
    modules = list(MODULES)
    if has("quic_wire.ciphers"):
        modules.append("quic_wire.ciphers")
        if (REPOSITORY / "c" / "tests").is_dir():
            tests.addTest(suite_of(README.read_text(), README.name))
        if WITH_OTHERS.is_file():
            for package, text in sections().items():
                tests.addTest(suite_of(text, package) if has(package) else skipped(package))
    for name in modules:
        tests.addTest(doctest.DocTestSuite(name, optionflags=doctest.ELLIPSIS))
    return tests


if __name__ == "__main__":
    unittest.main()
