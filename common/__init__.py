"""What the Python scripts of this repository share."""
from pathlib import Path

# the top of the repository in which the scripts are
TOP = Path(__file__).resolve().parent.parent
