"""Tests of the clients in Python and Java. The Python client and what its own tests share can be imported from here on."""
import sys

from tests import ROOT

sys.path[1:1] = [str(ROOT / "clients/python" / part) for part in ("src", "tests")]
