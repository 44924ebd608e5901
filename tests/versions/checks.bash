# What `history`, `show --at` and `edit --restore` print and make of files, for tests/run: it sources this file after tests/merging/checks.bash, and
# has `top`, `program`, `passed` and `failed`.
versions=$top/tests/versions

# version_refusals DATA: the rows of this folder; and what refuses `ls` refuses these commands in the same way: the rows of tests/opening, with
# the words of each command in turn.
version_refusals() {
  calls "$versions/rows" "$1"
  awk -F '\t' -v OFS='\t' '
    BEGIN { split("history,show\t--at\t1,edit\t--restore\t1", commands, ",") }
    $1 == "file" { print; next }
    /^sealed: 3\.1,/ && old++ % 5 { next } # a fifth of them
    $2 > 0 && $2 != 2 && $7 == "ls" && $NF == "FILE" {
      $7 = commands[count++ % 3 + 1]
      print $0, "Bank"
    }' "$top/tests/opening/rows" >rows.txt
  calls rows.txt "$1"
}

# where_no_version_can_be KIND FILE WORD...: what a disk does not take is a file fault, and the file is as it was; what cannot be printed is
# status 10; and `history` needs neither room nor a right to write. The words open the file, whose entry Bank has no other path.
where_no_version_can_be() {
  local kind=$1 file=$2 fault='keepass: work/FILE: file fault' words where
  shift 2
  rm -rf work
  mkdir work
  cp "$file" work/FILE
  chmod 644 work/FILE
  kept "$kind: a version that cannot be written whole" 7 "$fault" work within_two_blocks "$program" edit "$@" --restore 0 work/FILE Bank
  kept "$kind: a refusal where nothing can be written" 2 'keepass: work/FILE: no version 999' work within_two_blocks "$program" edit "$@" --restore 999 work/FILE Bank
  cp "$program" program
  chmod 755 . program
  chmod 444 work/FILE
  chmod 555 work
  kept "$kind: a version in a folder that may not be written" 7 "$fault" work as_user ./program edit "$@" --restore 0 work/FILE Bank
  state work >before.txt
  for words in history 'show --at 0'; do
    # shellcheck disable=SC2086
    as_user ./program $words "$@" work/FILE Bank <input.txt >report.txt 2>&1
    judged "$kind: in a folder that may not be written: $words" $?
    for where in '>/dev/full' '>&-' '>&- 2>&-'; do
      eval '"$program" $words "$@" work/FILE Bank <input.txt 2>err.txt' "$where"
      [ $? = 10 ]
      judged "$kind: $words $where" $?
    done
  done
  state work | cmp -s - before.txt
  judged "$kind: what was shown is as it was" $?
  # The file is written before the report is printed.
  chmod 755 work
  chmod 640 work/FILE
  "$program" edit "$@" --restore 0 work/FILE Bank >/dev/full 2>err.txt <input.txt
  [ $? = 10 ] && [ -z "$(find work -name '.*.keepass')" ] && [ "$(stat -c %a work/FILE)" = 640 ]
  judged "$kind: a version that cannot be reported" $?
  "$program" history "$@" work/FILE Bank <input.txt >report.txt 2>&1 && [ "$(wc -l <report.txt)" = "$(($("$program" history "$@" "$file" Bank <input.txt | wc -l) + 1))" ]
  judged "$kind: it was written" $?
  rm -rf work program
}

# versions_of_other_programs DATA: databases of other programs, and exports.
versions_of_other_programs() {
  local name password key_file asked=()
  if command -v keepassxc-cli >/dev/null; then asked=(keepassxc); else echo 'skipped: restored versions in KeePassXC, which is not installed'; fi
  while IFS=$'\x1f' read -r name password key_file; do
    compared "$name: versions restored" "$with_pykeepass" "$versions/others" "$program" "$1/$name.kdbx" "$password" "$key_file" "${asked[@]}"
  done < <(tr '\t' '\037' <"$1/databases")
  for name in keepassxc-export keepassxc-4.1-export; do
    compared "$name: versions restored" "$with_pykeepass" "$versions/others" "$program" "$1/$name.xml" - - "${asked[@]}"
  done
}

# versions_of_files DATA: all of it.
versions_of_files() {
  local seed=$RANDOM
  compared 'versions by hand' "$versions/against" "$program" table
  many_times "drawn versions, seed $seed" "$versions/against" "$program" random "$seed" 300
  compared "one-time codes of older versions, seed $seed" "$versions/against" "$program" codes "$seed" 40
  compared 'many versions, and many fields' "$versions/against" "$program" many
  version_refusals "$1"
  : >input.txt
  where_no_version_can_be plain "$1/keepassxc-export.xml" --plain
  printf '%s\n' "$secret" >input.txt
  where_no_version_can_be sealed "$1/keepassxc-saved-by-pykeepass.kdbx"
  if [ -n "$with_pykeepass" ]; then
    compared 'versions by hand, in databases' "$with_pykeepass" "$versions/against" "$program" sealed
    versions_of_other_programs "$1"
  else
    echo 'skipped: versions in databases; pykeepass is not installed'
  fi
  rm -f rows.txt before.txt after.txt report.txt FILE OLD MERGED
}
