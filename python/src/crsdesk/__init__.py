"""Well-known text (WKT2, ISO 19162:2019) of coordinate reference systems: whether two texts are the same CRS, and each
CRS in one canonical spelling.

    >>> from crsdesk import Crs
    >>> height = Crs('VERTCRS["H",VDATUM["D"],CS[vertical,1],AXIS["h",up,LENGTHUNIT["metre",1]]]')
    >>> height.kind
    'vertical'
    >>> height == Crs('VerticalCRS("H",VRF("D"),CS(vertical,1),AXIS("h",UP,LENGTHUNIT("metre",1.0)))')
    True

The calls return what a library with proved answers returns; this package around it is tested.
"""

from ._crs import Catalogue, Crs, Group, Level, Text, canon, check, difference, differences, digest, same
from ._difference import Difference
from ._library import version
from ._refused import Refused
from ._rules import Rules, RulesRefused

__all__ = [
    "Catalogue",
    "Crs",
    "Difference",
    "Group",
    "Level",
    "Refused",
    "Rules",
    "RulesRefused",
    "Text",
    "canon",
    "check",
    "difference",
    "differences",
    "digest",
    "same",
]
# Tracebacks and help have the names that are imported.
for _public in (Catalogue, Crs, Difference, Group, Refused, Rules, RulesRefused):
    _public.__module__ = __name__
del _public
__version__ = version()
