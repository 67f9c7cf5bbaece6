#!/usr/bin/env python3
"""business_survey.py --rules FILE --records FILE [--start N] [--rows N] [--one-in K] [--wrong LEAST MOST] [--classes N]

A business survey of 12 numerical and 4 categorical fields and 30 rules: balances, ratios, bounds by size
class, and rules on codes alone. All rows satisfy the rules; then about one row in K (default 4) gets LEAST to
MOST (default 1) wrong numbers, each blank or ten times itself plus 1. With --classes there is a further
categorical field Branch with the codes b1 to bN, drawn evenly, in no rule; all else is the same.
"""
import argparse


class Lcg:
    def __init__(self, start):
        self.state = start

    def draw(self, k):
        self.state = (self.state * 6364136223846793005 + 1442695040888963407) % (1 << 64)
        return (self.state >> 33) % k


NUMBERS = ["Turnover", "Goods", "Bought", "Wages", "Social", "Other", "Costs", "Profit", "Staff", "Full", "Part", "Invest"]
CODES = {
    "Activity": ["farm", "industry", "trade", "service"],
    "Size": ["micro", "small", "medium", "large"],
    "Region": ["north", "south", "east", "west"],
    "Form": ["sole", "company", "public"],
}
RULES = """Turnover >= 0
Goods >= 0
Bought >= 0
Wages >= 0
Social >= 0
Other >= 0
Costs >= 0
Staff >= 0
Full >= 0
Part >= 0
Invest >= 0
Goods + Bought + Wages + Social + Other - Costs = 0
Turnover - Costs - Profit = 0
10 Profit <= 6 Turnover
10 Profit + 5 Turnover >= 0
Full + Part - Staff = 0
Social <= Wages
Invest <= 2 Turnover
Wages >= 5 Full
Wages <= 100 Staff
if Size in {micro} then Staff <= 9
if Size in {small} then Staff >= 10
if Size in {small} then Staff <= 49
if Size in {medium} then Staff >= 50
if Size in {medium} then Staff <= 249
if Size in {large} then Staff >= 250
if Form in {sole} then Size in {micro, small}
if Activity in {farm} then Form not in {public}
if Size in {large} then Form not in {sole}
if Invest > 1000000 then Size not in {micro}
"""


def rule_file(classes):
    lines = []
    for name in NUMBERS:
        lines.append(f"number {name} weight {2 if name in ('Turnover', 'Costs') else 1} scale 1000")
    for name, codes in CODES.items():
        lines.append(f"code {name} in {{{', '.join(codes)}}}")
    if classes:
        lines.append(f"code Branch in {{{', '.join(f'b{number}' for number in range(1, classes + 1))}}}")
    return "\n".join(lines) + "\n" + RULES


def right_row(lcg):
    size = lcg.draw(4)
    if size == 0:
        staff = 1 + lcg.draw(9)
    elif size == 1:
        staff = 10 + lcg.draw(40)
    elif size == 2:
        staff = 50 + lcg.draw(200)
    else:
        staff = 250 + lcg.draw(750)
    part = lcg.draw(staff + 1)
    goods = 10 * lcg.draw(1000)
    bought = lcg.draw(1000)
    other = lcg.draw(500)
    wages = 20 * staff
    social = 4 * staff
    costs = goods + bought + wages + social + other
    profit = lcg.draw(costs // 4 + 1)
    invest = lcg.draw(40)
    activity = lcg.draw(4)
    region = lcg.draw(4)
    sole = lcg.draw(2) == 0 and size < 2
    numbers = [costs + profit, goods, bought, wages, social, other, costs, profit, staff, staff - part, part, invest]
    codes = [CODES["Activity"][activity], CODES["Size"][size], CODES["Region"][region], "sole" if sole else "company"]
    return numbers, codes


def texts_of(numbers, codes, lcg, one_in, least, most):
    texts = [str(x) for x in numbers]
    if lcg.draw(one_in) == 0:
        wrong = set()
        count = least if least == most else least + lcg.draw(most - least + 1)
        while len(wrong) < count:
            field = lcg.draw(12)
            texts[field] = "" if lcg.draw(2) == 0 else str(10 * numbers[field] + 1)
            wrong.add(field)
    return texts + codes


def main():
    parser = argparse.ArgumentParser(description=__doc__)
    parser.add_argument("--rules", required=True)
    parser.add_argument("--records", required=True)
    parser.add_argument("--start", type=int, default=1)
    parser.add_argument("--rows", type=int, default=100)
    parser.add_argument("--one-in", type=int, default=4)
    parser.add_argument("--wrong", type=int, nargs=2, default=[1, 1], metavar=("LEAST", "MOST"))
    parser.add_argument("--classes", type=int, default=0)
    args = parser.parse_args()
    with open(args.rules, "w") as file:
        file.write(rule_file(args.classes))
    lcg = Lcg(args.start)
    branches = Lcg(args.start)
    further = ["Branch"] if args.classes else []
    with open(args.records, "w") as file:
        file.write(",".join(["id", *NUMBERS, *CODES, *further]) + "\n")
        for number in range(1, args.rows + 1):
            numbers, codes = right_row(lcg)
            if further:
                codes = [*codes, f"b{1 + branches.draw(args.classes)}"]
            file.write(",".join([str(number), *texts_of(numbers, codes, lcg, args.one_in, *args.wrong)]) + "\n")


if __name__ == "__main__":
    main()
