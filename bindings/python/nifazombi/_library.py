"""The library: the one that NIFAZOMBI_LIBRARY names, or the one in this package."""
import ctypes
import os

from . import _exports as exports

PATH = os.environ.get("NIFAZOMBI_LIBRARY") or os.path.join(os.path.dirname(__file__), "libnifazombi.so")
try:
    library = ctypes.CDLL(PATH)
except OSError as error:
    raise ImportError(f"the library of nifazombi isn't there ({error}); NIFAZOMBI_LIBRARY names its file") from error
for _name, _result, _passed in exports.EXPORTS:
    _call = getattr(library, _name)
    _call.restype, _call.argtypes = _result, _passed
