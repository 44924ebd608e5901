# What `show`, `search`, `export` and `db-info` print of files, for tests/run: it sources this file after tests/merging/checks.bash, and has `top`,
# `program`, `passed` and `failed`.
showing=$top/tests/showing

# show_refusals DATA: the rows of this folder; and what refuses `ls` refuses these commands in the same way: the rows of tests/opening, with the
# words of each command in turn.
show_refusals() {
  calls "$showing/rows" "$1"
  awk -F '\t' -v OFS='\t' '
    BEGIN { split("show,search,export,db-info", commands, ","); split("Bank,bank,,", words, ",") }
    $1 == "file" { print; next }
    $2 > 0 && $2 != 2 && $7 == "ls" && $NF == "FILE" {
      turn = count++ % 4 + 1
      $7 = commands[turn]
      if (words[turn] == "") print; else print $0, words[turn]
    }' "$top/tests/opening/rows" >rows.txt
  calls rows.txt "$1"
}

# shown_where_nothing_can_be_written: these commands need no room on a disk, and no right to write; what cannot be printed is status 10.
shown_where_nothing_can_be_written() {
  local words where
  rm -rf work
  mkdir work
  cp "$top/examples/family.xml" work/FILE
  chmod 444 work/FILE
  chmod 555 work
  cp "$program" program
  chmod 755 . program
  state work >before.txt
  while read -r words; do
    # shellcheck disable=SC2086
    as_user ./program $words <input.txt >report.txt 2>&1
    judged "in a folder that may not be written: $words" $?
    for where in '>/dev/full' '>&-' '>&- 2>&-'; do
      eval '"$program" $words <input.txt 2>err.txt' "$where"
      [ $? = 10 ]
      judged "$words $where" $?
    done
  done <<<"show --plain -s --all work/FILE Bank
search --plain work/FILE a
export --plain work/FILE
export --plain -f csv work/FILE
db-info --plain work/FILE"
  state work | cmp -s - before.txt
  judged 'what was shown is as it was' $?
  chmod 755 work
  rm -rf work program
}

# shown_databases DATA: databases of other programs, and exports.
shown_databases() {
  local name password key_file asked
  keepassxc=$(command -v keepassxc-cli) || echo 'skipped: shown entries in KeePassXC, which is not installed'
  if [ -n "$keepassxc" ]; then asked=(keepassxc); else asked=(); fi
  while IFS=$'\x1f' read -r name password key_file; do
    compared "$name: shown and exported" "$with_pykeepass" "$showing/others" "$program" "$1/$name.kdbx" "$password" "$key_file" "${asked[@]}"
  done < <(tr '\t' '\037' <"$1/databases")
  if ! grep -q '^file-kdbx-3.1' "$1/databases" && [ -n "$keepassxc" ]; then
    compared 'file-kdbx-3.1: shown and exported' "$with_pykeepass" "$showing/others" "$program" "$1/file-kdbx-3.1.kdbx" "$secret" '' keepassxc
  fi
  for name in keepassxc-export keepassxc-4.1-export; do
    compared "$name: shown and exported" "$with_pykeepass" "$showing/others" "$program" "$1/$name.xml" - - "${asked[@]}"
  done
}

# shown_files DATA: all of it.
shown_files() {
  local seed=$RANDOM
  : >input.txt
  compared 'shown by hand' "$showing/against" "$program" table
  compared 'references at their limits' "$showing/against" "$program" limits
  many_times "drawn documents, seed $seed" "$showing/against" "$program" random "$seed" 600
  many_times "drawn documents by a second reading, seed $seed" "$showing/finding.py" "$program" 200 "$seed"
  compared "one-time codes of drawn secrets, seed $seed" "$showing/codes" "$program" 140 "$seed"
  show_refusals "$1"
  : >input.txt
  shown_where_nothing_can_be_written
  if [ -n "$with_pykeepass" ]; then
    compared 'shown by hand, in databases' "$with_pykeepass" "$showing/against" "$program" sealed
    shown_databases "$1"
  else
    echo 'skipped: shown databases; pykeepass is not installed'
  fi
  rm -f rows.txt before.txt after.txt report.txt FILE
}
