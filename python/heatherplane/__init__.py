"""Star files in Python: numpy arrays lent to the proved calls of libheatherplane. docs/GUIDE.md is the way in."""
from .library import Growth, Parameters, version
from .refusals import ImageRefused, NotHeld, Refused
from .starfile import Found, Position, StarFile
from .tray import Filing, Tray

__all__ = [
    "Filing", "Found", "Growth", "ImageRefused", "NotHeld", "Parameters", "Position", "Refused", "StarFile", "Tray", "version",
]  # fmt: skip
