"""Reads lines of hex digits, and prints for each the canonical bytes of the value that loads makes of it.

    printf '%s\\n' bf6346756ef563416d7421ff 1800 | python3 values_cli.py [bytewise|length [MAX_BYTES]]

A line that is refused gives `refused 5 Float at 1`, and one whose keys are equal in Python gives `no value`.
"""

import sys

import naltvigo


def result(line, order, most):
    try:
        value = naltvigo.loads(bytes.fromhex(line), order=order, depth=1024, max_bytes=most)
    except naltvigo.Refused as refused:
        return f"refused {refused.reason} {refused.name} at {refused.offset}"
    except ValueError:
        return "no value"
    return naltvigo.dumps(value, order=order, depth=1024, max_bytes=most).hex()


def main():
    order = sys.argv[1] if len(sys.argv) > 1 else "bytewise"
    most = int(sys.argv[2]) if len(sys.argv) > 2 else 1 << 30
    for line in sys.stdin:
        print(result(line.strip(), order, most))


if __name__ == "__main__":
    main()
