#!/bin/bash
# Compares the contracts of the public calls with those of another commit: no change may lose a clause.
#
# usage: bench/clauses.sh [BASE]        (default: the commit before this one; what is not committed counts as well)
#
# It needs git, and the history of the checkout as far back as BASE.
#
# How to read it: `gone` is a clause that no call of this name has any more, `changed` one whose call has another of its name, `asked` a
# condition that a call did not ask for before, each with the old text (`-`) and the new one (`+`). A clause that moved to another file or
# crate with its call, or that got another name, is the same. The last line counts the calls and clauses of both, and what went; the status is 1 where a clause is gone or
# changed, or more is asked. A changed clause may be the stronger one: that is for the reader to see. Definitions in specs/ are not compared.
set -eu
. "$(dirname "$0")/lib.sh"
exec python3 "$top/bench/clauses/compare.py" "$top" "${1:-HEAD~1}"
