#!/usr/bin/env python3
"""last_period.py --rules FILE --records FILE --last FILE [--start N]

The last period of a business survey (business_survey.py): adds to its rules the last fields last_Staff, last_Turnover and last_Form,
with bounds on how far a business grows or shrinks in a period and that it keeps its form, and writes the rows of the last period,
in another order. Each row has what the record has, less up to a quarter; one in 50 is not there.
"""
import argparse
import csv

from business_survey import Lcg

FIELDS = """number last_Staff weight 1 scale 1000
number last_Turnover weight 1 scale 1000
code last_Form weight 1 in {sole, company, public}
"""
RULES = """Staff <= 4 last_Staff
2 Staff >= last_Staff
Turnover <= 10 last_Turnover
10 Turnover >= last_Turnover
if last_Form in {public} then Form in {public, company}
"""


def number(text):
    """The number of a text, 100 where it is none."""
    return int(text) if text.isdigit() else 100


def main():
    words = argparse.ArgumentParser()
    for name in ("rules", "records", "last"):
        words.add_argument(f"--{name}", required=True)
    words.add_argument("--start", type=int, default=1)
    asked = words.parse_args()
    with open(asked.rules) as file:
        lines = file.read().splitlines(keepends=True)
    fields = [line for line in lines if line.startswith(("number ", "code "))]
    with open(asked.rules, "w") as file:
        file.write("".join(fields) + FIELDS + "".join(lines[len(fields):]) + RULES)
    lcg = Lcg(asked.start)
    with open(asked.records, newline="") as file:
        rows = list(csv.DictReader(file))
    kept = []
    for row in rows:
        if lcg.draw(50):
            less = lambda name: number(row[name]) - lcg.draw(number(row[name]) // 4 + 1)
            kept.append([row["id"], less("Staff"), less("Turnover"), row["Form"]])
    kept.sort(key=lambda row: row[0][::-1])
    with open(asked.last, "w", newline="") as file:
        csv.writer(file, lineterminator="\n").writerows([["id", "Staff", "Turnover", "Form"], *kept])


main()
