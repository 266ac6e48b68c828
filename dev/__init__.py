"""What a contributor can do, a module for each: `make help` lists them, and `python3 -m dev.NAME --help` tells more."""
import sys
from pathlib import Path

# (the packages naplps and naplps_pages)
sys.path.insert(1, str(Path(__file__).resolve().parents[1] / "python"))
