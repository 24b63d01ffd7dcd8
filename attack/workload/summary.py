#!/usr/bin/env python3
"""The summary of a workload, from the rules of docs/FORMATS.md alone, for comparison with the program's.

summary.py N prints the six lines of the workload N."""

import sys


def summary(number):
    x = number
    commits = 3
    selects = 0
    rows = {"a": 0, "b": 0}
    sums = {"a": 0, "b": 0}
    for session in range(1, 5):
        tables = {"a": {}, "b": {}}
        for k in range(1, 2001):
            x = (x * 6364136223846793005 + 1442695040888963407) % 2**64
            draw = x // 2**33
            value = draw % 1000
            case = draw % 8
            if case in (0, 1):
                tables["ab"[case]][session * 1000000 + k] = value
                commits += 1
            elif case == 2:
                keys = tables["a"]
                if any(old != value for old in keys.values()):
                    commits += 1
                for key in keys:
                    keys[key] = value
            else:
                selects += 1
        for name, table in tables.items():
            rows[name] += len(table)
            sums[name] += sum(table.values())
    return (
        f"workload {number}\n"
        "commands 8008\n"
        f"commits {commits}\n"
        f"table a rows {rows['a']} sum {sums['a']}\n"
        f"table b rows {rows['b']} sum {sums['b']}\n"
        f"selects {selects}\n"
    )


if __name__ == "__main__":
    sys.stdout.write(summary(int(sys.argv[1])))
