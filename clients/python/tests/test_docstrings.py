"""Every public name of the package has a docstring, and those that take or give numbers say their shape or unit."""
import inspect
import unittest

import support  # noqa: F401
import colmjurr
from colmjurr import aio, bridge, copying, plots
from colmjurr.exporter import Exporter

# What a docstring has to say besides: of what shape the numbers are, in which unit, and which errors may come.
SAYS = {
    "Channel.range": ("microseconds", "index_of"), "Channel.load": ("shape (n,)", "Refused", "ValueRefused"), "Channel.replace": ("shape (n,)", "microseconds", "Refused"),
    "Channel.truncate": ("microseconds",), "Channel.first": ("microseconds",), "Channel.last": ("microseconds",), "Channel.kind": ("boolean",), "Channel.unit": ("unit",),
    "Loader.load_many": ("shape (n,)", "ValueRefused"), "Array.read": ("shape", "IndexError"), "Array.write": ("elements", "bytes"), "Array.patch": ("shape", "Refused"),
    "Store.put": ("bytes", "NotFound", "Refused"), "Store.get": ("NotFound", "Refused"), "Store.ping": ("seconds",), "Points.to_pandas": ("shape (n, 1)", "UTC"),
    "Points.times": ("shape (n,)", "UTC"), "Points.to_csv": ("ISO 8601",), "index_of": ("microseconds", "ValueRefused"), "time_of": ("microseconds", "ValueRefused"),
    "connect": ("seconds", "DialError", "HandshakeError", "TimeLimit"), "plot_log": ("ValueRefused",), "copy": ("Difference", "NotFound"),
}


def public(holder, prefix=""):
    """The public functions, classes, methods and properties of a module or class, by their names."""
    names = getattr(holder, "__all__", None) or [name for name in vars(holder) if not name.startswith("_")]
    for name in names:
        found = inspect.getattr_static(holder, name)
        if isinstance(found, type):
            yield name, found
            yield from public(found, name + ".")
        elif isinstance(found, property):
            yield prefix + name, found
        elif inspect.isfunction(found):
            yield prefix + name, found


class Docstrings(unittest.TestCase):
    def test_every_public_name_has_one(self):
        seen = {}
        for holder in (colmjurr, aio, colmjurr.sync):
            for name, found in public(holder):
                module = getattr(found, "__module__", None) or getattr(getattr(found, "fget", None), "__module__", "")
                if not module.startswith("colmjurr"):
                    continue
                seen.setdefault(name, []).append(found)
                with self.subTest(name=name):
                    self.assertTrue((found.__doc__ or "").strip(), f"{module}: {name} has no docstring")
        for found in (bridge.Bridge, bridge.fold, copying.copy, plots.plot_log, Exporter):
            seen.setdefault(found.__name__, []).append(found)
            self.assertTrue(found.__doc__)
        self.assertGreater(len(seen), 100)
        for name, words in SAYS.items():
            for found in seen[name]:
                owner = getattr(found, "__module__", None) or found.fget.__module__
                for word in words:
                    with self.subTest(name=name, module=owner):
                        self.assertIn(word, found.__doc__)


if __name__ == "__main__":
    unittest.main()
