"""Tables in files, searched where they lie by a proved library.

`Routes` finds the longest network that holds an address, `Texts` what is stored of a text and around it.
"""
from ._table import ImageError
from .routes import Route, Routes
from .texts import Texts

__all__ = ["ImageError", "Route", "Routes", "Texts"]
__version__ = "0.9.0"
