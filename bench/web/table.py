"""Makes a Markdown table of the lines of JSON that bench/web.sh gathers: table.py < RESULTS"""

import json
import re
import sys

BROWSERS = [("Firefox", r"Firefox/(\d+)"), ("Chromium", r"(?:Headless)?Chrom\w*/(\d+)")]


def name_of(result):
    engine = result["engine"]
    for name, pattern in BROWSERS:
        if found := re.search(pattern, engine):
            engine = f"{name} {found[1]}"
            break
    return engine if engine.startswith("native") else f"{engine}, {result['memory']} bits"


results = [json.loads(line) for line in sys.stdin]
for result in results:
    if "found" not in result:
        sys.exit(f"no times: {result}")
rows = list(results[-1]["found"])
print("| | " + " | ".join(map(name_of, results)) + " |")
print("|---|" + "---:|" * len(results))
for row in rows:
    print(f"| {row} | " + " | ".join(f"{result['found'][row]:,.0f}" if row in result["found"] else "" for result in results) + " |")
