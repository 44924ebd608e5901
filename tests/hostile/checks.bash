# Hostile use, for tests/run: it sources this file after tests/changing/checks.bash, and has `top`, `way`, `program`, `passed`
# and `failed`.
hostile=$top/tests/hostile

# In so many equal parts each change of the damaged files is tried by the gate.
damaged_parts=8

# each_change NUMBER: one of these parts, the first one being 1.
each_change() {
  many_times "each change of damaged files, by every command, part $1 of $damaged_parts" "$hostile/damaged" "$program" all "$1/$damaged_parts"
}

# hostile_use: all of it, but of the damaged files a third where the gate does not try them all. The program of rows is there as the
# gate leaves it.
hostile_use() {
  local rows line
  if [ "$way" != --gate ]; then
    many_times 'a third of the damaged files, by commands in turns' "$hostile/damaged" "$program"
    echo 'skipped: each change of damaged files, by every command; .ci/run does that'
  fi
  many_times 'files at the limits, by every command' "$hostile/shapes" "$program"
  many_times 'blocks of chosen lengths, by every command' "$hostile/blocks" "$program"
  many_times 'what calls leave in memory' "$hostile/secrets" "$program"
  while IFS= read -r line; do echo "$line"; done < <(grep '^skipped: ' report.txt)
  rows=$(ls -t "$top"/crates/call_rows/out/call_rows "$top"/crates/call_rows/out/call_rows.by-rattle 2>/dev/null | head -1)
  if [ -n "$rows" ]; then
    many_times 'calls on the outside that fail' "$hostile/failing" "$rows"
    if [ "$way" = --gate ]; then
      many_times 'files that are read in pieces' "$hostile/windows" "$rows" all
    else
      many_times 'files that are read in pieces, a part of them' "$hostile/windows" "$rows"
    fi
  else
    echo 'skipped: calls on the outside that fail, and files that are read in pieces; run `rt run` in crates/call_rows to build its program'
  fi
}
