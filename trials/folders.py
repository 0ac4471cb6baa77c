"""Where things are, for the scripts of trials/: TOP is the top of the tree. With the import of this module those of bench/ and of
crates/rpm_rows/models/ can be imported too, so a script imports it before them."""
import sys
from pathlib import Path

TOP = Path(__file__).resolve().parent.parent
sys.path += [str(TOP / "bench"), str(TOP / "crates" / "rpm_rows" / "models")]
