"""For scripts that write files here, or with --check say which files differ from what they would write."""

import sys
from pathlib import Path

ROOT = Path(__file__).resolve().parent.parent


def write_or_compare(texts):
    """Writes these texts, by path, or with --check compares them. Returns the status of the script."""
    stale = [path for path, text in texts.items() if not path.exists() or path.read_text(encoding="utf-8") != text]
    for path in stale:
        if "--check" in sys.argv:
            print(f"{path.relative_to(ROOT)} is not what scripts/{Path(sys.argv[0]).name} writes")
        else:
            path.write_text(texts[path], encoding="utf-8")
    return 1 if stale and "--check" in sys.argv else 0
