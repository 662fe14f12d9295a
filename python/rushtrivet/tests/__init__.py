"""Tests: run `python3 -m unittest` in the folder above. The library is found as the package finds it."""

import sys
from pathlib import Path

sys.path.insert(0, str(Path(__file__).resolve().parents[1] / "src"))
