#!/usr/bin/env python3
"""labour_survey.py --rules FILE --records FILE [--start N] [--rows N] [--errors K] [--bad P]

A labour-force survey: 17 categorical fields, 5 numerical ones, 65 rules, mostly on codes. The rows before
the errors satisfy every rule. --bad P is the per cent of rows that get errors (default 30) and --errors K
fixes the number of fields hit in each such row (default 0: one to four, evenly).
"""
import argparse
import os
import sys
sys.path.insert(0, os.path.dirname(os.path.abspath(__file__)))
from rule_language import read_rules, print_rules, is_clean, Fraction


class Lcg:
    def __init__(self, start):
        self.s = start

    def draw(self, k):
        self.s = (self.s * 6364136223846793005 + 1442695040888963407) % (1 << 64)
        return (self.s >> 33) % k


LABOUR = """number Age weight 3 scale 10
number Hours weight 2 scale 10
number Wage weight 1 scale 1000
number SeekWeeks weight 1 scale 10
number Children weight 2 scale 1
code Sex weight 3 in {m, f}
code AgeGroup weight 2 in {child, youth, prime, older, retired}
code Marital weight 2 in {single, married, widowed, divorced}
code Relation weight 2 in {head, spouse, child, parent, other}
code Educ weight 1 in {none, primary, secondary, tertiary}
code School weight 1 in {no, part, full}
code Activity weight 3 in {employed, unemployed, inactive}
code Status weight 2 in {employee, selfemp, family, na}
code Contract weight 1 in {permanent, temporary, na}
code Sector weight 1 in {agri, industry, construction, services, public, na}
code Occup weight 1 in {manager, professional, clerical, craft, elementary, armed, na}
code FullTime weight 1 in {full, part, na}
code Search weight 1 in {yes, no, na}
code Reason weight 1 in {study, care, illness, retired, other, na}
code Pension weight 1 in {none, disability, oldage, survivor}
code Citizen weight 2 in {national, eu, other}
code Tenure weight 1 in {own, rent, free}
Age >= 0
Age <= 120
Hours >= 0
Hours <= 98
Wage >= 0
SeekWeeks >= 0
Children >= 0
Children <= 15
Wage <= 400 Hours
if AgeGroup in {child} then Age < 15
if AgeGroup in {youth} then Age >= 15
if AgeGroup in {youth} then Age < 25
if AgeGroup in {prime} then Age >= 25
if AgeGroup in {prime} then Age < 55
if AgeGroup in {older} then Age >= 55
if AgeGroup in {older} then Age < 65
if AgeGroup in {retired} then Age >= 65
if AgeGroup in {child} then Marital in {single}
if AgeGroup in {child} then Educ in {none, primary}
if AgeGroup in {child} then Activity in {inactive}
if AgeGroup in {child} then Relation not in {head, spouse, parent}
if AgeGroup in {child} then Children = 0
if Relation in {spouse} then Marital in {married}
if Educ in {tertiary} then Age >= 18
if Activity in {employed} then Status not in {na}
if Activity not in {employed} then Status in {na}
if Activity in {employed} then Search in {na}
if Activity in {unemployed} then Search in {yes}
if Activity in {inactive} then Search in {no}
if Activity in {inactive} then Reason not in {na}
if Activity not in {inactive} then Reason in {na}
if Status in {na} then Sector in {na}
if Status not in {na} then Sector not in {na}
if Status in {na} then Occup in {na}
if Status not in {na} then Occup not in {na}
if Status in {employee} then Contract not in {na}
if Status not in {employee} then Contract in {na}
if Status in {employee} then Wage > 0
if Status not in {employee} then Wage = 0
if Status in {na} then FullTime in {na}
if Status not in {na} then FullTime not in {na}
if FullTime in {full} then Hours >= 30
if FullTime in {part} then Hours < 30
if FullTime in {part} then Hours > 0
if FullTime in {na} then Hours = 0
if Status in {employee} and FullTime in {full} then Wage >= 600
if Search in {yes} then SeekWeeks > 0
if Search not in {yes} then SeekWeeks = 0
if Reason in {retired} then AgeGroup in {older, retired}
if Reason in {study} then School in {part, full}
if School in {full} then AgeGroup in {child, youth, prime}
if School in {full} then FullTime not in {full}
if Pension in {oldage} then AgeGroup in {older, retired}
if Pension in {survivor} then Marital in {widowed}
if Pension in {disability} then FullTime not in {full}
if Occup in {professional} then Educ in {tertiary}
if Occup in {manager} then Educ not in {none, primary}
if Occup in {armed} then Sector in {public}
if Occup in {armed} then Citizen in {national}
if Sector in {public} then Status in {employee}
if AgeGroup in {retired} and Reason in {study, care} then Pension not in {none}
if Status in {family} then Relation not in {head}
if Hours > 60 then Status in {selfemp, family}
if Age >= 75 then Activity in {inactive}
if Children > 8 then AgeGroup not in {youth}
"""


def pick(d, opts):
    tot = sum(w for _, w in opts)
    k = d(tot)
    for o, w in opts:
        if k < w:
            return o
        k -= w


def labour_row(d):
    r = {}
    age = d(90)
    r['Age'] = age
    ag = 'child' if age < 15 else 'youth' if age < 25 else 'prime' if age < 55 else 'older' if age < 65 else 'retired'
    r['AgeGroup'] = ag
    r['Sex'] = pick(d, [('m', 1), ('f', 1)])
    child = ag == 'child'
    r['Marital'] = 'single' if child else pick(d, [('single', 8 if ag == 'youth' else 3), ('married', 5), ('widowed', 4 if ag == 'retired' else 1), ('divorced', 1)])
    rel = ['child', 'other'] if child else ['head', 'head', 'other', 'child'] + (['spouse', 'spouse'] if r['Marital'] == 'married' else []) + (['parent'] if ag in ('older', 'retired') else [])
    r['Relation'] = rel[d(len(rel))]
    ed = ['none', 'primary'] if child else ['primary', 'secondary', 'secondary'] + (['tertiary', 'tertiary'] if age >= 18 else [])
    r['Educ'] = ed[d(len(ed))]
    r['Children'] = 0 if child else d(4) if ag != 'youth' else d(2)
    r['Citizen'] = pick(d, [('national', 8), ('eu', 1), ('other', 1)])
    r['Tenure'] = pick(d, [('own', 5), ('rent', 4), ('free', 1)])
    act = 'inactive' if child or age >= 75 else pick(d, [('employed', 7 if ag in ('prime', 'older') else 3 if ag == 'youth' else 1), ('unemployed', 2 if ag in ('youth', 'prime', 'older') else 0), ('inactive', 2 if ag in ('prime', 'older') else 4)])
    r['Activity'] = act
    sch = ['full', 'full', 'part'] if child else ['no', 'full', 'part'] if ag == 'youth' else ['no', 'no', 'no', 'part']
    r['School'] = sch[d(len(sch))]
    for k in ('Status', 'Contract', 'Sector', 'Occup', 'FullTime', 'Search', 'Reason'):
        r[k] = 'na'
    r['Hours'] = r['Wage'] = r['SeekWeeks'] = 0
    if act == 'employed':
        r['Status'] = pick(d, [('employee', 7), ('selfemp', 2), ('family', 0 if r['Relation'] == 'head' else 1)])
        oc = ['clerical', 'craft', 'elementary'] + (['professional', 'professional'] if r['Educ'] == 'tertiary' else []) + (['manager'] if r['Educ'] in ('secondary', 'tertiary') else [])
        r['Occup'] = oc[d(len(oc))]
        se = ['agri', 'industry', 'construction', 'services', 'services'] + (['public'] if r['Status'] == 'employee' else [])
        r['Sector'] = se[d(len(se))]
        if r['Sector'] == 'public' and r['Citizen'] == 'national' and d(8) == 0:
            r['Occup'] = 'armed'
        ft = 'part' if r['School'] == 'full' else pick(d, [('full', 3), ('part', 1)])
        r['FullTime'] = ft
        r['Hours'] = 30 + d(20) if ft == 'full' else 1 + d(29)
        if r['Status'] == 'selfemp' and ft == 'full' and d(6) == 0:
            r['Hours'] = 61 + d(20)
        if r['Status'] == 'employee':
            r['Contract'] = pick(d, [('permanent', 4), ('temporary', 1)])
            r['Wage'] = max(600, r['Hours'] * (25 + d(90))) if ft == 'full' else r['Hours'] * (25 + d(90))
        r['Search'] = 'na'
    elif act == 'unemployed':
        r['Search'] = 'yes'
        r['SeekWeeks'] = 1 + d(100)
    else:
        r['Search'] = 'no'
        rs = ['other', 'illness'] + (['study'] * 3 if r['School'] != 'no' else []) + (['care'] if not child else []) + (['retired'] * 4 if ag in ('older', 'retired') else [])
        r['Reason'] = rs[d(len(rs))]
    pe = ['none']
    if ag == 'retired':
        pe = ['oldage'] * 4
    elif ag == 'older':
        pe = ['none', 'none', 'oldage']
    if r['Marital'] == 'widowed':
        pe.append('survivor')
    if act == 'inactive' and r['Reason'] == 'illness':
        pe.append('disability')
    r['Pension'] = pe[d(len(pe))]
    return r


def swap_digits(d, t):
    neg, t = t.startswith('-'), t.lstrip('-')
    if len(t) >= 2:
        i = d(len(t) - 1)
        t = t[:i] + t[i + 1] + t[i] + t[i + 2:]
    return ('-' if neg else '') + t


def spoil(d, sv, txt, f):
    fld = sv.fields[f]
    k = d(12)
    if not fld.is_num:
        if k == 0:
            return ''
        if k == 1:
            return '99'
        others = [c for c in fld.codes if c != txt[f]]
        return others[d(len(others))]
    v = int(txt[f])
    if k <= 1:
        return ''
    if k <= 4:
        return str(v * 1000 if v else 1 + d(500))     # thousand error
    if k == 5:
        return str(-v) if v else str(1 + d(50))        # sign error
    if k <= 7:
        return str(10 * v + 1)
    if k <= 9:
        t = swap_digits(d, txt[f])
        return t if t != txt[f] else str(v + 1 + d(9))
    if k == 10:
        return '%d.5' % (v + d(100))
    return str(v // 2 + d(30))


def labour_rows(start, rows, errors, bad):
    sv = read_rules(LABOUR)
    d = Lcg(start).draw
    nf = len(sv.fields)
    for no in range(1, rows + 1):
        for _ in range(1000):
            r = labour_row(d)
            vals = [Fraction(r[f.name]) if f.is_num else f.codes.index(r[f.name]) for f in sv.fields]
            if is_clean(sv, vals):
                break
        else:
            raise SystemExit('no clean row: ' + repr(r))
        txt = [str(r[f.name]) for f in sv.fields]
        hit = 0
        if d(100) < bad:
            hit = errors or 1 + d(4)
            chosen = []
            while len(chosen) < hit:
                f = d(nf)
                if f not in chosen:
                    chosen.append(f)
            new = list(txt)
            for f in chosen:
                new[f] = spoil(d, sv, txt, f)
            txt = new
        yield [str(no)] + txt, hit


def main():
    a = argparse.ArgumentParser()
    a.add_argument('--rules', required=True)
    a.add_argument('--records', required=True)
    a.add_argument('--start', type=int, default=1)
    a.add_argument('--rows', type=int, default=1000)
    a.add_argument('--errors', type=int, default=0)
    a.add_argument('--bad', type=int, default=30)
    x = a.parse_args()
    sv = read_rules(LABOUR)
    with open(x.rules, 'w', newline='') as f:
        f.write(print_rules(sv))
    with open(x.records, 'w', newline='') as f:
        f.write('id,' + ','.join(field.name for field in sv.fields) + '\n')
        for row, _ in labour_rows(x.start, x.rows, x.errors, x.bad):
            f.write(','.join(row) + '\n')


main()
