// A plain De Waal branch and bound in double arithmetic, after editrules' errorLocalizer.
// One record at a time, one thread, nothing shared between records. A node takes one field:
// left keeps it (its value is substituted), right changes it (it is eliminated: Fourier-Motzkin with
// substitution by equalities, or the combination of categorical edits). Numerical fields before
// categorical ones. Pruned by the weight of the best set so far.
// Faster than editrules itself (R): C++, blocks of edits, a node is left at once where
// keeping all the rest already satisfies its system, dominated rows are dropped.
//
//   branch_and_bound --rules FILE --records FILE [--out CSV] [--times CSV] [--limit SECONDS] [--budget SECONDS] [--dfs | --plain]
//   default: the weight bound is deepened step by step (as CherryPi/SLICE's bound on changes)
//   --dfs:   one depth-first search without a bound at first, keep before change, as editrules
//   --plain: --dfs with the fields in declared order and no early leaf: the textbook tree
#include <algorithm>
#include <chrono>
#include <cmath>
#include <cstdint>
#include <cstdio>
#include <cstdlib>
#include <cstring>
#include <fstream>
#include <map>
#include <set>
#include <sstream>
#include <string>
#include <vector>
using namespace std;
typedef uint64_t u64;
static double now() {
  return chrono::duration<double>(chrono::steady_clock::now().time_since_epoch()).count();
}
[[noreturn]] static void die(const string& s) { fprintf(stderr, "branch_and_bound: %s\n", s.c_str()); exit(3); }

// ---------------------------------------------------------------- rules
struct Fld { string name; int weight = 1; bool num = true; vector<string> codes; int pos = 0; };
static vector<Fld> F;
static map<string, int> byname;
static int NN = 0, NC = 0;              // numbers of numerical and categorical fields
static vector<int> numf, catf;          // positions -> field
struct Test { bool code; int f; u64 mask; map<int, double> a; double c; string cmp; };
struct Rule { vector<Test> conds; Test concl; };
static vector<Rule> R;

struct Tok { char k; string s; };       // k: n name, d digits, o operator
static vector<Tok> lex(const string& t) {
  vector<Tok> out; size_t i = 0; bool br = false;
  auto nm = [](char ch) { return isalnum((unsigned char)ch) || ch == '_'; };
  while (i < t.size()) {
    char ch = t[i];
    if (ch == ' ' || ch == '\t') { i++; continue; }
    size_t j = i;
    if (br && ch != '{' && ch != '}' && ch != ',') {
      while (j < t.size() && (nm(t[j]) || t[j] == '-' || t[j] == '.')) j++;
      if (j == i) die("syntax: " + t);
      out.push_back({'n', t.substr(i, j - i)});
    } else if (isalpha((unsigned char)ch)) {
      while (j < t.size() && nm(t[j])) j++;
      out.push_back({'n', t.substr(i, j - i)});
    } else if (isdigit((unsigned char)ch)) {
      while (j < t.size() && isdigit((unsigned char)t[j])) j++;
      out.push_back({'d', t.substr(i, j - i)});
    } else {
      j = i + 1;
      if ((ch == '<' || ch == '>') && j < t.size() && t[j] == '=') j++;
      if (ch == '{') br = true;
      if (ch == '}') br = false;
      out.push_back({'o', t.substr(i, j - i)});
    }
    i = j;
  }
  return out;
}
struct P {
  vector<Tok> t; size_t i = 0;
  bool is(const char* s) { return i < t.size() && t[i].s == s; }
  string take() { if (i >= t.size()) die("syntax"); return t[i++].s; }
  void need(const char* s) { if (!is(s)) die(string("syntax, wanted ") + s); i++; }
  vector<string> lst() { need("{"); vector<string> o{take()}; while (is(",")) { i++; o.push_back(take()); } need("}"); return o; }
  void sum(double side, Test& q) {
    double sg = 1;
    if (is("+") || is("-")) sg = take() == "-" ? -1 : 1;
    for (;;) {
      double n = 1; bool had = false;
      if (i < t.size() && t[i].k == 'd') { n = strtod(take().c_str(), 0); had = true; if (is("*")) i++; }
      if (i < t.size() && t[i].k == 'n' && t[i].s != "then" && t[i].s != "and") {
        string s = take(); if (!byname.count(s) || !F[byname[s]].num) die("unknown number " + s);
        q.a[F[byname[s]].pos] += side * sg * n;
      } else { if (!had) die("syntax"); q.c += side * sg * n; }
      if (is("+") || is("-")) sg = take() == "-" ? -1 : 1; else return;
    }
  }
  Test test() {
    Test q; q.code = false; q.c = 0; q.f = -1; q.mask = 0;
    if (i + 1 < t.size() && (t[i + 1].s == "in" || t[i + 1].s == "not")) {
      q.code = true; string s = take(); bool neg = false;
      if (!byname.count(s) || F[byname[s]].num) die("unknown code field " + s);
      Fld& f = F[byname[s]]; q.f = f.pos;
      if (is("not")) { i++; neg = true; }
      need("in");
      for (auto& c : lst()) {
        auto it = find(f.codes.begin(), f.codes.end(), c); if (it == f.codes.end()) die("unknown code " + c);
        q.mask |= 1ull << (it - f.codes.begin());
      }
      u64 all = f.codes.size() == 64 ? ~0ull : (1ull << f.codes.size()) - 1;
      if (neg) q.mask = all & ~q.mask;
      return q;
    }
    sum(1, q); q.cmp = take(); sum(-1, q);
    for (auto it = q.a.begin(); it != q.a.end();) if (it->second == 0) it = q.a.erase(it); else ++it;
    return q;
  }
};
static u64 whole(int cat) { size_t n = F[catf[cat]].codes.size(); return n == 64 ? ~0ull : (1ull << n) - 1; }
static void read_rules(const string& name) {
  ifstream in(name, ios::binary); if (!in) die("read " + name);
  string l;
  while (getline(in, l)) {
    if (!l.empty() && l.back() == '\r') l.pop_back();
    size_t h = l.find('#'); if (h != string::npos) l.resize(h);
    if (l.compare(0, 3, "\xEF\xBB\xBF") == 0) l = l.substr(3);
    P p; p.t = lex(l); if (p.t.empty()) continue;
    if (p.is("number") || p.is("code")) {
      Fld f; f.num = p.take() == "number"; f.name = p.take();
      if (p.is("weight")) { p.i++; f.weight = atoi(p.take().c_str()); }
      if (f.num && p.is("scale")) { p.i++; p.take(); }
      if (!f.num) { p.need("in"); f.codes = p.lst(); }
      f.pos = f.num ? NN++ : NC++;
      (f.num ? numf : catf).push_back(F.size());
      byname[f.name] = F.size(); F.push_back(f);
    } else {
      Rule r;
      if (p.is("if")) { p.i++; r.conds.push_back(p.test()); while (p.is("and")) { p.i++; r.conds.push_back(p.test()); } p.need("then"); }
      r.concl = p.test(); R.push_back(r);
    }
  }
}

// ---------------------------------------------------------------- systems
// A row: sets (one mask per categorical field), factors, constant, magnitude, flags.
// Meaning: where every code is in its set, sum + constant >= 0 (or > 0, or = 0).
struct Sys {
  int n = 0;
  vector<u64> S; vector<double> A; vector<uint8_t> fl;   // A: NN factors, constant, magnitude; fl 1 strict, 2 equality
  u64* s(int i) { return S.data() + (size_t)i * NC; }
  double* a(int i) { return A.data() + (size_t)i * (NN + 2); }
  const u64* s(int i) const { return S.data() + (size_t)i * NC; }
  const double* a(int i) const { return A.data() + (size_t)i * (NN + 2); }
  int add() { S.resize((size_t)(n + 1) * NC); A.resize((size_t)(n + 1) * (NN + 2), 0.0); fl.push_back(0); return n++; }
  void pop() { n--; S.resize((size_t)n * NC); A.resize((size_t)n * (NN + 2)); fl.pop_back(); }
  int copy(const Sys& o, int i) {
    S.insert(S.end(), o.s(i), o.s(i) + NC); A.insert(A.end(), o.a(i), o.a(i) + NN + 2); fl.push_back(o.fl[i]); return n++;
  }
  void drop(int i) {   // order is not kept
    if (i != n - 1) { memcpy(s(i), s(n - 1), NC * sizeof(u64)); memcpy(a(i), a(n - 1), (NN + 2) * sizeof(double)); fl[i] = fl[n - 1]; }
    pop();
  }
};
static vector<u64> W;   // whole masks
static Sys base;
static double tol(double mag) { return 1e-12 * mag + 1e-9; }
static bool false_row(const double* a, uint8_t fl) {   // no factors: does the linear part fail?
  double c = a[NN], t = tol(a[NN + 1]);
  if (fl & 2) return fabs(c) > t;
  return fl & 1 ? c <= t : c < -t;
}
static double stop_at = 1e300; static bool timed_out; static unsigned tick;
static bool late_now() { if ((++tick & 255) == 0 && now() > stop_at) timed_out = true; return timed_out; }
static bool nofac(const double* a) { for (int k = 0; k < NN; k++) if (a[k] != 0) return false; return true; }
static bool full(const u64* s) { for (int k = 0; k < NC; k++) if (s[k] != W[k]) return false; return true; }

static void push_lin(const Test& q, const vector<u64>& sets, bool negate) {
  for (u64 m : sets) if (!m) return;
  string cmp = q.cmp;
  auto put = [&](double sg, uint8_t fl) {
    int i = base.add(); for (int k = 0; k < NC; k++) base.s(i)[k] = sets[k];
    for (auto& x : q.a) base.a(i)[x.first] = sg * x.second;
    base.a(i)[NN] = sg * q.c; base.a(i)[NN + 1] = fabs(q.c); base.fl[i] = fl;
  };
  bool fullset = true; for (int k = 0; k < NC; k++) if (sets[k] != W[k]) fullset = false;
  if (negate) cmp = cmp == ">=" ? "<" : cmp == ">" ? "<=" : cmp == "<=" ? ">" : ">=";
  if (cmp == ">=") put(1, 0); else if (cmp == ">") put(1, 1); else if (cmp == "<=") put(-1, 0); else if (cmp == "<") put(-1, 1);
  else if (fullset) put(1, 2); else { put(1, 0); put(-1, 0); }
}
static void normal_form() {
  for (int k = 0; k < NC; k++) W.push_back(whole(k));
  for (auto& r : R) {
    vector<u64> sets = W; const Test* numc = nullptr;
    for (auto& t : r.conds) if (t.code) sets[t.f] &= t.mask; else numc = &t;
    if (r.concl.code) {
      sets[r.concl.f] &= W[r.concl.f] & ~r.concl.mask;
      if (numc) push_lin(*numc, sets, true);
      else { Test q; q.code = false; q.c = -1; q.cmp = ">="; push_lin(q, sets, false); }
    } else push_lin(r.concl, sets, false);
  }
}

// drop trivial and dominated rows
static void reduce(Sys& y) {
  static vector<u64> sup; sup.resize(y.n);
  for (int i = 0; i < y.n;) {
    const double* a = y.a(i); u64 m = 0;
    for (int k = 0; k < NN; k++) m |= (u64)(a[k] != 0) << k;
    if (!m && !false_row(a, y.fl[i])) { y.drop(i); continue; }
    sup[i++] = m;
  }
  auto subs = [&](int p, int q) {   // p implies q
    if (sup[p] && sup[p] != sup[q]) return false;
    if ((y.fl[p] ^ y.fl[q]) & 2) return false;
    const u64 *sp = y.s(p), *sq = y.s(q);
    for (int k = 0; k < NC; k++) if (sq[k] & ~sp[k]) return false;
    if (!sup[p]) return true;
    const double *ap = y.a(p), *aq = y.a(q);
    for (int k = 0; k < NN; k++) if (fabs(ap[k] - aq[k]) > 1e-12) return false;
    double d = aq[NN] - ap[NN];
    if (y.fl[p] & 2) return d == 0;
    if (d > 0) return true;
    return d == 0 && ((y.fl[p] & 1) || !(y.fl[q] & 1));
  };
  auto drop = [&](int j) { y.drop(j); sup[j] = sup[y.n]; };
  for (int i = 0; i < y.n && !late_now(); i++)
    for (int j = 0; j < y.n;) {
      if (i != j && subs(i, j)) { drop(j); if (i == y.n) i = j; continue; }
      j++;
    }
}
static void scale_row(double* a) {
  double m = 0; for (int k = 0; k < NN; k++) m = max(m, fabs(a[k]));
  if (m > 0 && m != 1) for (int k = 0; k < NN + 2; k++) a[k] /= m;
}
static void combine(Sys& out, const Sys& y, int p, int q, double m, double n, int f, uint8_t fl) {
  int i = out.add(); double* o = out.a(i); const double *a = y.a(p), *b = y.a(q);
  for (int k = 0; k < NN; k++) {
    double u = m * a[k], v = n * b[k], w = u + v;
    if (fabs(w) <= 1e-11 * (fabs(u) + fabs(v))) w = 0;
    o[k] = w;
  }
  o[f] = 0;
  o[NN] = m * a[NN] + n * b[NN]; o[NN + 1] = fabs(m) * a[NN + 1] + fabs(n) * b[NN + 1];
  for (int k = 0; k < NC; k++) out.s(i)[k] = y.s(p)[k] & y.s(q)[k];
  out.fl[i] = fl; scale_row(o);
}
static Sys eliminate(const Sys& y, int f) {
  Sys out; int e = -1, cnt = 1 << 30;
  for (int i = 0; i < y.n; i++) if ((y.fl[i] & 2) && y.a(i)[f] != 0 && full(y.s(i))) {
    int c = 0; for (int k = 0; k < NN; k++) c += y.a(i)[k] != 0;
    if (c < cnt) { cnt = c; e = i; }
  }
  if (e >= 0) {
    for (int i = 0; i < y.n; i++) if (i != e) {
      if (y.a(i)[f] == 0) { out.copy(y, i); continue; }
      combine(out, y, i, e, 1, -y.a(i)[f] / y.a(e)[f], f, y.fl[i]);
    }
  } else {
    vector<int> pos, neg;
    for (int i = 0; i < y.n; i++) { double v = y.a(i)[f]; if (v == 0) out.copy(y, i); else (v > 0 ? pos : neg).push_back(i); }
    for (int p : pos) for (int q : neg) {
      if (late_now()) return out;
      bool meet = true; for (int k = 0; k < NC; k++) if (!(y.s(p)[k] & y.s(q)[k])) { meet = false; break; }
      if (!meet) continue;
      combine(out, y, p, q, -y.a(q)[f], y.a(p)[f], f, (y.fl[p] | y.fl[q]) & 1);
    }
  }
  reduce(out); return out;
}
static Sys subst(const Sys& y, int f, double v) {
  Sys out;
  for (int i = 0; i < y.n; i++) {
    int j = out.copy(y, i); double* a = out.a(j);
    if (a[f] != 0) { double t = a[f] * v; a[NN] += t; a[NN + 1] += fabs(t); a[f] = 0; if (nofac(a) && !false_row(a, out.fl[j])) out.pop(); }
  }
  return out;
}
static Sys fixcat(const Sys& y, int f, int code) {
  Sys out;
  for (int i = 0; i < y.n; i++) if (y.s(i)[f] >> code & 1) { int j = out.copy(y, i); out.s(j)[f] = W[f]; }
  return out;
}
static Sys elimcat(const Sys& y, int f) {   // no factors any more; rows are forbidden boxes
  Sys pass, oth;
  for (int i = 0; i < y.n; i++) (y.s(i)[f] == W[f] ? pass : oth).copy(y, i);
  Sys cur; cur.add(); for (int k = 0; k < NC; k++) cur.s(0)[k] = W[k]; cur.a(0)[NN] = -1;
  int nc = F[catf[f]].codes.size();
  for (int c = 0; c < nc; c++) {
    Sys nx;
    for (int p = 0; p < cur.n && !late_now(); p++) for (int b = 0; b < oth.n; b++) if (oth.s(b)[f] >> c & 1) {
      bool ok = true; for (int k = 0; k < NC; k++) if (k != f && !(cur.s(p)[k] & oth.s(b)[k])) { ok = false; break; }
      if (!ok) continue;
      int i = nx.add(); for (int k = 0; k < NC; k++) nx.s(i)[k] = k == f ? W[f] : cur.s(p)[k] & oth.s(b)[k]; nx.a(i)[NN] = -1;
    }
    reduce(nx); cur = nx; if (!cur.n) break;
  }
  for (int i = 0; i < cur.n; i++) pass.copy(cur, i);
  reduce(pass); return pass;
}

// ---------------------------------------------------------------- search
static vector<double> X; static vector<int> C; static vector<char> badN, badC;
static long best; static u64 nodes; static bool plain, dfs;
static long next_bound;   // with deepening: the least weight that was cut off
static bool cut(long w) { if (w < best) return false; if (w < next_bound) next_bound = w; return true; }
static bool violated(const Sys& y, int i) {    // at the record's own values for all that is left
  double c = y.a(i)[NN], mag = y.a(i)[NN + 1];
  for (int k = 0; k < NN; k++) if (y.a(i)[k] != 0) { double t = y.a(i)[k] * X[k]; c += t; mag += fabs(t); }
  double t = tol(mag);
  if (y.fl[i] & 2) return fabs(c) > t;
  return y.fl[i] & 1 ? c <= t : c < -t;
}
// nst, cst: 0 open, 1 treated
static void search(const Sys& y, vector<char>& nst, vector<char>& cst, long w) {
  if (timed_out) return;
  if ((++nodes & 15) == 0 && now() > stop_at) { timed_out = true; return; }
  if (timed_out) return;
  if (cut(w)) return;
  for (int i = 0; i < y.n; i++) if (full(y.s(i)) && nofac(y.a(i)) && false_row(y.a(i), y.fl[i])) return;
  // Bad fields are changed without a branch; numerical ones first
  for (int k = 0; k < NN; k++) if (!nst[k] && badN[k]) {
    nst[k] = 1; Sys z = eliminate(y, k); search(z, nst, cst, w + F[numf[k]].weight); nst[k] = 0; return;
  }
  // what fails if all the rest is kept (open Bad codes count as failing)
  vector<int> nsc(NN, 0), csc(NC, 0); bool any = false, openbad = false; int bw = 1 << 30;
  for (int k = 0; k < NC; k++) if (!cst[k] && badC[k]) openbad = true;
  for (int i = 0; i < y.n; i++) {
    bool in = true;
    for (int k = 0; k < NC && in; k++) if (y.s(i)[k] != W[k] && !badC[k] && !(y.s(i)[k] >> C[k] & 1)) in = false;
    if (!in || !violated(y, i)) continue;
    any = true;
    for (int k = 0; k < NN; k++) if (!nst[k] && y.a(i)[k] != 0) { nsc[k]++; bw = min(bw, F[numf[k]].weight); }
    for (int k = 0; k < NC; k++) if (!cst[k] && y.s(i)[k] != W[k]) { csc[k]++; bw = min(bw, F[catf[k]].weight); }
  }
  if (!plain) {
    if (!any && !openbad) { best = w; return; }
    if (any && cut(w + bw)) return;
  }
  int pick = -1;
  if (plain) { for (int k = 0; k < NN && pick < 0; k++) if (!nst[k]) pick = k; }
  else {
    double sc = -1;
    for (int k = 0; k < NN; k++) if (!nst[k]) {
      bool there = false; for (int i = 0; i < y.n && !there; i++) there = y.a(i)[k] != 0;
      if (!there) continue;
      double v = nsc[k] / (double)F[numf[k]].weight + (nsc[k] ? 0 : -0.5);
      if (v > sc) { sc = v; pick = k; }
    }
  }
  if (pick >= 0) {
    nst[pick] = 1;
    { Sys z = subst(y, pick, X[pick]); search(z, nst, cst, w); }
    if (!cut(w + F[numf[pick]].weight)) { Sys z = eliminate(y, pick); search(z, nst, cst, w + F[numf[pick]].weight); }
    nst[pick] = 0; return;
  }
  // categorical: rows have no factors now (fields absent from all rows may be kept)
  for (int k = 0; k < NC; k++) if (!cst[k] && badC[k]) {
    cst[k] = 1; Sys z = elimcat(y, k); search(z, nst, cst, w + F[catf[k]].weight); cst[k] = 0; return;
  }
  int cp = -1; double sc = -1;
  for (int k = 0; k < NC; k++) if (!cst[k]) {
    if (plain) { cp = k; break; }
    bool there = false; for (int i = 0; i < y.n && !there; i++) there = y.s(i)[k] != W[k];
    if (!there) continue;
    double v = csc[k] / (double)F[catf[k]].weight;
    if (v > sc) { sc = v; cp = k; }
  }
  if (cp < 0) { best = w; return; }     // nothing left and no row failed
  cst[cp] = 1;
  { Sys z = fixcat(y, cp, C[cp]); search(z, nst, cst, w); }
  if (!cut(w + F[catf[cp]].weight)) { Sys z = elimcat(y, cp); search(z, nst, cst, w + F[catf[cp]].weight); }
  cst[cp] = 0;
}

// ---------------------------------------------------------------- records
static vector<string> split(const string& l) {
  vector<string> o; string c; bool q = false;
  for (size_t i = 0; i < l.size(); i++) {
    if (q) { if (l[i] == '"') { if (i + 1 < l.size() && l[i + 1] == '"') { c += '"'; i++; } else q = false; } else c += l[i]; }
    else if (l[i] == '"' && c.empty()) q = true;
    else if (l[i] == ',') { o.push_back(c); c.clear(); }
    else c += l[i];
  }
  o.push_back(c); return o;
}
static string trim(const string& s) { size_t a = s.find_first_not_of(" \t"), b = s.find_last_not_of(" \t"); return a == string::npos ? "" : s.substr(a, b - a + 1); }
static bool numeral(const string& s0, double& v) {
  string s = trim(s0); size_t i = 0; if (i < s.size() && (s[i] == '+' || s[i] == '-')) i++;
  size_t a = i; while (i < s.size() && isdigit((unsigned char)s[i])) i++;
  size_t nd = i - a;
  if (i < s.size() && s[i] == '/') {
    size_t b = ++i; while (i < s.size() && isdigit((unsigned char)s[i])) i++;
    if (i != s.size() || nd < 1 || nd > 21 || i - b < 1 || i - b > 7) return false;
    double d = strtod(s.substr(b).c_str(), 0); if (d < 1 || d > 1e6) return false;
    v = strtod(s.substr(a, nd).c_str(), 0) / d; if (s[0] == '-') v = -v; return true;
  }
  size_t fd = 0; if (i < s.size() && s[i] == '.') { size_t b = ++i; while (i < s.size() && isdigit((unsigned char)s[i])) i++; fd = i - b; }
  if (i != s.size() || nd + fd < 1 || nd > 15 || fd > 6) return false;
  v = strtod(s.c_str(), 0); return true;
}

int main(int argc, char** argv) {
  string rules, recs, out, times; double limit = 60, budget = 0;
  for (int i = 1; i < argc; i++) {
    string a = argv[i];
    if (a == "--plain") { plain = true; continue; }
    if (a == "--dfs") { dfs = true; continue; }
    if (i + 1 >= argc) die("usage");
    string v = argv[++i];
    if (a == "--rules") rules = v; else if (a == "--records") recs = v; else if (a == "--out") out = v; else if (a == "--times") times = v; else if (a == "--limit") limit = atof(v.c_str()); else if (a == "--budget") budget = atof(v.c_str()); else die("usage");
  }
  double t0 = now();
  read_rules(rules); normal_form();
  reduce(base);
  bool contra = false;
  // blocks: fields joined by rows
  int NF = NN + NC; vector<int> par(NF); for (int i = 0; i < NF; i++) par[i] = i;
  auto root = [&](int x) { while (par[x] != x) x = par[x] = par[par[x]]; return x; };
  auto firstof = [&](const Sys& y, int i) { for (int k = 0; k < NN; k++) if (y.a(i)[k] != 0) return k; for (int k = 0; k < NC; k++) if (y.s(i)[k] != W[k]) return NN + k; return -1; };
  for (int i = 0; i < base.n; i++) {
    int f = firstof(base, i); if (f < 0) { contra = true; continue; }
    for (int k = 0; k < NN; k++) if (base.a(i)[k] != 0) par[root(k)] = root(f);
    for (int k = 0; k < NC; k++) if (base.s(i)[k] != W[k]) par[root(NN + k)] = root(f);
  }
  map<int, Sys> block; for (int f = 0; f < NF; f++) block[root(f)];
  for (int i = 0; i < base.n; i++) { int f = firstof(base, i); if (f >= 0) block[root(f)].copy(base, i); }

  ifstream in(recs, ios::binary); if (!in) die("read " + recs);
  string l; vector<int> col(F.size(), -1); bool head = false; FILE* fo = out.empty() ? stdout : fopen(out.c_str(), "w"); FILE* ft = times.empty() ? nullptr : fopen(times.c_str(), "w");
  fprintf(fo, "record,weight\n"); if (ft) fprintf(ft, "record,seconds,nodes\n");
  long no = 0, dirty = 0, late = 0; double solve = 0; u64 total = 0;
  while (getline(in, l)) {
    if (!l.empty() && l.back() == '\r') l.pop_back();
    if (l.empty()) continue;
    vector<string> c = split(l);
    if (!head) { head = true; for (size_t k = 0; k < c.size(); k++) { string n = trim(c[k]); if (byname.count(n)) col[byname[n]] = k; } for (int x : col) if (x < 0) die("column"); continue; }
    if (budget > 0 && now() - t0 > budget) break;   // the rest is not tried
    no++; double r0 = now();
    X.assign(NN, 0); C.assign(NC, 0); badN.assign(NN, 0); badC.assign(NC, 0);
    for (size_t f = 0; f < F.size(); f++) {
      const string& s = c[col[f]];
      if (F[f].num) { if (!numeral(s, X[F[f].pos])) badN[F[f].pos] = 1; }
      else { auto it = find(F[f].codes.begin(), F[f].codes.end(), trim(s)); if (it == F[f].codes.end()) badC[F[f].pos] = 1; else C[F[f].pos] = it - F[f].codes.begin(); }
    }
    long weight = 0; bool clean = true, imposs = contra; nodes = 0; timed_out = false; stop_at = now() + limit;
    for (auto& b : block) {
      bool need = false;
      for (int f = 0; f < NF && !need; f++) if (root(f) == b.first && (f < NN ? badN[f] : badC[f - NN])) need = true;
      for (int i = 0; i < b.second.n && !need; i++) {
        bool inn = true; for (int k = 0; k < NC && inn; k++) if (b.second.s(i)[k] != W[k] && !(b.second.s(i)[k] >> C[k] & 1)) inn = false;
        if (inn && violated(b.second, i)) need = true;
      }
      if (!need) continue;
      clean = false; if (imposs) continue;
      vector<char> nst(NN, 1), cst(NC, 1);
      for (int f = 0; f < NF; f++) if (root(f) == b.first) (f < NN ? nst[f] : cst[f - NN]) = 0;
      const long NONE = 1 << 30;
      if (dfs || plain) { best = NONE; search(b.second, nst, cst, 0); }
      else for (long bound = 1;;) {        // deepening: only sets lighter than `bound + 1` first
        best = bound + 1; next_bound = NONE; search(b.second, nst, cst, 0);
        if (timed_out || best <= bound) break;
        if (next_bound == NONE) { best = NONE; break; }
        bound = max(bound + 1, next_bound);
      }
      if (timed_out) break;
      if (best == NONE) imposs = true; else weight += best;
    }
    double dt = now() - r0; total += nodes;
    if (clean && !imposs) fprintf(fo, "%ld,clean\n", no);
    else { dirty++; solve += dt; if (timed_out) { late++; fprintf(fo, "%ld,timeout\n", no); } else if (imposs) fprintf(fo, "%ld,contradictory\n", no); else fprintf(fo, "%ld,%ld\n", no, weight); if (ft) fprintf(ft, "%ld,%.9f,%llu\n", no, dt, (unsigned long long)nodes); }
  }
  if (fo != stdout) fclose(fo);
  if (ft) fclose(ft);
  double t = now() - t0;
  fprintf(stderr, "branch_and_bound records %ld not clean %ld timeout %ld seconds %.3f solve %.3f records/s %.0f dirty/s %.0f nodes %llu\n", no, dirty, late, t, solve, no / t, dirty / (solve > 0 ? solve : 1e-9), (unsigned long long)total);
}
