"""What scripts have in common: `lib` is the package tests/lib here."""
from pathlib import Path

__path__ = [str(Path(__file__).resolve().parents[1] / "lib")]
