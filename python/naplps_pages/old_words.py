"""Words that the tool had before version 0.5.0, and what is said in their place."""
from typing import Dict

COMMANDS: Dict[str, str] = {
    "carve": "fix", "census": "files --census", "convert": "canon", "cures": "fix", "describe": "show --format words",
    "explain": "check --explain", "look": "show", "merge": "scan --merge", "near": "equal --nearly",
    "play": "show --format html", "refused": "files --refused", "serve": "report --serve", "source": "make --from",
    "split": "fix", "status": "files", "text": "show --format text"}
OPTIONS: Dict[str, str] = {
    "--after": "--previous", "--again": "--rescan", "--all": "--max-pictures all", "--animate": "--format apng",
    "--by": "--pictures", "--dots": "--format png", "--each-refused": "--reason",
    "--full": "--explain --json", "--guesses": "--include guesses", "--html": "--format html", "--into": "-o",
    "--least": "--min-entries", "--look": "--format svg", "--most": "--max-size", "--no-carve": "--skip carve",
    "--no-cures": "--skip repair", "--no-words": "--skip words", "--null": "--print0", "--number": "--reason",
    "--on": "--dask", "--part": "--shard", "--past": "--guess", "--png": "--format png", "--processes": "--jobs",
    "--replace": "--force", "--seconds": "--timeout", "--sheet": "-o", "--sketches": "--max-pictures",
    "--speed": "--baud", "--svg": "--format svg", "--treated": "--include treated", "--unfinished": "--force",
    "--with": "--include"}
