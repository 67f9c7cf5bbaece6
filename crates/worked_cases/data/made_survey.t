The survey that is made, a thousand records of it, edited by four workers. In each record that breaks a rule one number is wrong, so
that no least weight is more than that of its field; and each such record is given a donor, where donors may be given as often as they
are asked for. How many records are clean, and what the changes weigh, was computed by another program.

  $ forxainde make --rules rules --records records --rows 1000
  made rows 1000
  $ forxainde edit --rules rules --records records --released released --reasons reasons --proof proof --limit 1000 --workers 4
  records 1000 clean 753 changed 247 unresolved 0 weight 303
  claims 247 given 247
  $ forxainde check --rules rules --records records --released released --proof proof
  valid records 1000 released 1000
  $ forxainde edit --rules rules --records records --released released --reasons reasons --proof proof --limit 1000 --workers 4
  records 1000 clean 753 changed 247 unresolved 0 weight 303
  claims 247 given 247
  $ forxainde edit --rules rules --records records --released released --reasons reasons --proof proof --limit 1000 --workers 4
  records 1000 clean 753 changed 247 unresolved 0 weight 303
  claims 247 given 247
  $ forxainde edit --rules rules --records records --released released --reasons reasons --proof proof --limit 1000 --workers 4
  records 1000 clean 753 changed 247 unresolved 0 weight 303
  claims 247 given 247
  $ forxainde edit --rules rules --records records --released released --reasons reasons --proof proof --limit 1000 --workers 4
  records 1000 clean 753 changed 247 unresolved 0 weight 303
  claims 247 given 247
  $ forxainde edit --rules rules --records records --released released --reasons reasons --proof proof --limit 1000 --workers 4
  records 1000 clean 753 changed 247 unresolved 0 weight 303
  claims 247 given 247
  $ forxainde edit --rules rules --records records --released released --reasons reasons --proof proof --limit 1000 --workers 4
  records 1000 clean 753 changed 247 unresolved 0 weight 303
  claims 247 given 247
  $ forxainde edit --rules rules --records records --released released --reasons reasons --proof proof --limit 1000 --workers 4
  records 1000 clean 753 changed 247 unresolved 0 weight 303
  claims 247 given 247
  $ forxainde edit --rules rules --records records --released released --reasons reasons --proof proof --limit 1000 --workers 4
  records 1000 clean 753 changed 247 unresolved 0 weight 303
  claims 247 given 247
  $ forxainde edit --rules rules --records records --released released --reasons reasons --proof proof --limit 1000 --workers 4
  records 1000 clean 753 changed 247 unresolved 0 weight 303
  claims 247 given 247
  $ forxainde check --rules rules --records records --released released --proof proof
  valid records 1000 released 1000
