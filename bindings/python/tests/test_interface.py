# SPDX-License-Identifier: Apache-2.0 OR MIT
"""The docstrings and the type hints of the package."""
import functools
import inspect
import pathlib
import unittest

import statsd_proved
from statsd_proved import Pipeline, SpyStatsClient, StatsClient, Timer, _core


FOLDER = pathlib.Path(inspect.getfile(statsd_proved)).parent


def stub():
    """Returns what the stub of the extension module says, as if it were a module."""
    said = {"__name__": "statsd_proved.stub", "__package__": "statsd_proved"}
    exec("from __future__ import annotations\n" + (FOLDER / "_core.pyi").read_text(), said)
    return said


def calls():
    """Yields the name of each public call, and the call."""
    for kind in (StatsClient, Pipeline, Timer):
        for name, call in inspect.getmembers(kind, inspect.isroutine):
            if not name.startswith("_") or (name == "__init__" and inspect.isfunction(call)):
                yield f"{kind.__name__}.{name}", call


class Interface(unittest.TestCase):
    def test_all_that_is_public_has_a_docstring(self):
        public = [(name, getattr(statsd_proved, name)) for name in statsd_proved.__all__]
        kinds = [(name, what) for name, what in public if inspect.isclass(what)]
        self.assertEqual(len(kinds), 8)
        for name, what in [*kinds, *calls()]:
            if not name.endswith("__init__"):
                self.assertTrue(inspect.getdoc(what), name)

    def test_each_parameter_and_result_has_a_type(self):
        hints = vars(stub()["Calls"])
        seen = 0
        for name, call in calls():
            signature = inspect.signature(hints[call.__name__] if inspect.ismethoddescriptor(call) else call)
            self.assertIsNot(signature.return_annotation, inspect.Signature.empty, name)
            for parameter in list(signature.parameters.values())[1:]:
                self.assertIsNot(parameter.annotation, inspect.Parameter.empty, f"{name}: {parameter.name}")
                seen += 1
        self.assertGreater(seen, 100)

    def test_the_stub_has_the_calls_of_the_module(self):
        hints = {name: call for name, call in vars(stub()["Calls"]).items() if not name.startswith("_")}
        self.assertEqual(sorted(hints), sorted(name for name in vars(_core.Calls) if not name.startswith("_")))
        for name, call in hints.items():
            said, are = ([(one.name, one.kind, one.default) for one in list(inspect.signature(what).parameters.values())[1:]]
                         for what in (call, getattr(_core.Calls, name)))
            self.assertEqual(said, are, name)

    def test_arguments_that_do_not_fit_are_refused_as_by_a_function_of_python(self):
        given = [((), {}), (("a",), {}), (("a", 1, 1, False, 1), {}), (("a",), {"stat": "a"}), (("a", 1), {"tagz": 1}),
                 (("a", 1, 1, 1), {}), ((), {"value": 1}), ((), {"count": 1}), (("a", 1, 1), {"rate": 1}), (("a", 1), {"delta": True}),
                 (("a",), {"tags\0": 1})]
        refused = 0
        with SpyStatsClient(raises=True) as client:
            for name, hinted in vars(stub()["Calls"]).items():
                for args, words in given if not name.startswith("_") else ():
                    told = []
                    for call in (functools.partial(hinted, client), getattr(client, name)):
                        try:
                            call(*args, **words)
                        except TypeError as fault:
                            said = str(fault).partition(". Did you mean")[0]  # from Python 3.13 on a function guesses
                            told.append(said.replace("Calls.", "Metrics."))
                            refused += 1
                        else:
                            told.append(None)
                    self.assertEqual(told[0], told[1], (name, args, words))
            self.assertEqual(client.counts()["bad"], 0)
        self.assertGreater(refused, 100)

    def test_type_checkers_read_the_hints(self):
        for name in ("py.typed", "_core.pyi"):
            (FOLDER / name).open().close()


if __name__ == "__main__":
    unittest.main()
