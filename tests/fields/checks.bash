# What `edit` makes of fields of an entry's own, of tags and of an expiry, for tests/run: it sources this file after tests/merging/checks.bash, and
# has `top`, `program`, `passed` and `failed`.
fields=$top/tests/fields

# field_refusals DATA: the rows of this folder; and what refuses `ls` refuses such an edit in the same way: the rows of tests/opening, with the
# words of each option in turn.
field_refusals() {
  calls "$fields/rows" "$1"
  awk -F '\t' -v OFS='\t' '
    BEGIN { split("edit\t--tag\ta,edit\t--unset\town,edit\t--expires\tnever,edit\t--untag\ta", commands, ",") }
    $1 == "file" { print; next }
    /^sealed: 3\.1,/ && old++ % 5 { next } # a fifth of them
    $2 > 0 && $2 != 2 && $7 == "ls" && $NF == "FILE" {
      $7 = commands[count++ % 4 + 1]
      print $0, "Bank"
    }' "$top/tests/opening/rows" >rows.txt
  calls rows.txt "$1"
}

# values_at_the_limit KIND FILE LINE WORD...: a value of 4,096 bytes, one whose end is missing, and one after a carriage return. The words open the
# file by this line, if it is not empty.
values_at_the_limit() {
  local kind=$1 line=$3 long
  cp "$2" FILE
  shift 3
  printf -v long '%4096s' ''
  long=${long// /a}
  printf '%s%s\n' "$line" "$long" >input.txt
  works "$kind: a value of 4,096 bytes" 'Successfully edited entry Bank.' "$program" edit "$@" --set own FILE Bank
  printf '%s' "$line" >input.txt
  works "$kind: it is shown" "$long" "$program" show "$@" -a own FILE Bank
  printf '%s%s\r\n%s' "$line" 'one' 'two' >input.txt
  works "$kind: a line that ends with a carriage return, and one without an end" '' "$program" edit -q "$@" --set first --set second --protect FILE Bank
  printf '%s' "$line" >input.txt
  works "$kind: neither has one" "one${nl-$'\n'}two" "$program" show "$@" -a first -a second FILE Bank
  works "$kind: both are hidden" "$(printf '%s\n' 'Title: Bank' 'first: PROTECTED' 'second: PROTECTED')" hidden_fields "$@"
  printf '%sleft\nfor others\n' "$line" >input.txt
  { "$program" edit -q "$@" --set own FILE Bank && cat >report.txt; } <input.txt
  [ "$(cat report.txt)" = 'for others' ]
  judged "$kind: no more is read than the lines that are asked for" $?
  rm -f FILE
}

# hidden_fields WORD...: the lines of the title and of two fields that the words show.
hidden_fields() {
  "$program" show --all "$@" FILE Bank | grep -E '^(Title|first|second):'
}

# fields_of_files DATA: all of it.
fields_of_files() {
  local seed=$RANDOM
  compared 'fields by hand' "$fields/against" "$program" table
  many_times "drawn edits of fields, seed $seed" "$fields/against" "$program" random "$seed" 300
  field_refusals "$1"
  values_at_the_limit plain "$top/examples/family.xml" '' --plain
  values_at_the_limit sealed "$1/keepassxc-saved-by-pykeepass.kdbx" "$secret"$'\n'
  if [ -n "$with_pykeepass" ]; then
    compared 'fields by hand, in databases' "$with_pykeepass" "$fields/against" "$program" sealed
  else
    echo 'skipped: fields in databases; pykeepass is not installed'
  fi
  rm -f rows.txt before.txt after.txt report.txt FILE
}
