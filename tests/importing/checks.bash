# What `import` makes of sources, for tests/run: it sources this file after tests/moving/checks.bash, and has `top`, `program`, `passed`
# and `failed`.
importing=$top/tests/importing

# import_refusals DATA: the rows of this folder. None of them may leave a file of the name OUT, or a draft of it.
import_refusals() {
  local name
  cp "$1"/key-1.key .
  rm -f OUT
  calls "$importing/rows" "$1"
  compgen -G "OUT" >report.txt
  compgen -G ".OUT.*.keepass" >>report.txt
  [ ! -s report.txt ]
  judged 'a refused import leaves no file' $?
  for name in table.csv bad.csv bad.keyx; do rm -f "$name"; done
}

# not_imported NAME STATUS SUBJECT TEXT COMMAND...: the command is refused with this line, and no file of the folder `work` is another.
not_imported() {
  local name=$1 status=$2 said="keepass: $3: $4"
  shift 4
  kept "$name" "$status" "$said" work "$@"
}

# imports_at_the_limits: sources and documents as long as may be, and longer; a node more than may be; many columns. So many entries as nodes
# may be are longer than a document.
imports_at_the_limits() {
  local limit='limit passed'
  : >input.txt
  rm -rf work
  mkdir work
  truncate -s 134217729 work/SOURCE
  not_imported 'a source longer than may be' 8 work/SOURCE "$limit" "$program" import --plain --format csv work/SOURCE work/FILE
  not_imported 'a document longer than may be' 8 work/SOURCE "$limit" "$program" import --plain work/SOURCE work/FILE
  printf 'pw\n' >input.txt
  not_imported 'a file of Password Safe longer than may be' 8 work/SOURCE "$limit" "$program" import --plain --format psafe3 work/SOURCE work/FILE
  : >input.txt
  truncate -s 134217728 work/SOURCE
  not_imported 'a table as long as may be' 4 work/SOURCE 'no Title column' "$program" import --plain --format csv work/SOURCE work/FILE
  { echo Title; head -c 30000000 /dev/zero | tr '\0' '&'; } >work/SOURCE
  not_imported 'a title longer than may be written' 8 work/FILE "$limit" "$program" import --plain --format csv work/SOURCE work/FILE
  "$importing/make" bytes 134086657 work/SOURCE
  not_imported 'a text longer than may be written' 8 work/FILE "$limit" "$program" import --plain --format csv work/SOURCE work/FILE
  "$importing/make" bytes 134086656 work/SOURCE
  works 'a text as long as may be written' 'Successfully imported database.' "$program" import --plain --format csv work/SOURCE work/FILE
  [ "$(stat -c %s work/FILE)" = 134086656 ]
  judged 'a text as long as may be written is whole' $?
  rm work/FILE
  "$importing/make" nodes 262144 work/SOURCE
  not_imported 'a node more than may be' 8 work/FILE "$limit" "$program" import --plain --format csv work/SOURCE work/FILE
  "$importing/make" columns 1000 SOURCE
  compared 'a thousand columns' "$importing/against" "$program" file csv SOURCE
  rm -rf work
}

# imported_where_no_file_can_be SOURCE WORD...: what a disk does not take is a file fault, and there is neither a file nor a draft. The words
# are those of an import of the source, but for the names.
imported_where_no_file_can_be() {
  local name="import $2" source=$1 words
  shift
  words=(import "$@" "$PWD/$source")
  rm -rf work
  mkdir work
  not_imported "$name: a file that cannot be written whole" 7 work/FILE 'file fault' within_two_blocks "$program" "${words[@]}" work/FILE
  cp "$program" program
  chmod 755 . program
  chmod 644 "$source"
  chmod 555 work
  not_imported "$name: a folder that may not be written" 7 work/FILE 'file fault' as_user ./program "${words[@]}" work/FILE
  chmod 755 work
  # What is left of a call that was cut off is no obstacle, and a file that is there comes before a fault.
  printf 'left over' >work/.FILE.0123456789abcdef.keepass
  works "$name: an old draft" 'Successfully imported database.' "$program" "${words[@]}" work/FILE
  [ "$(stat -c %a work/FILE)" = 600 ]
  judged "$name: a new file is its owner's alone" $?
  not_imported "$name: again" 2 work/FILE 'file exists' within_two_blocks "$program" "${words[@]}" work/FILE
  # The file is written before the report is printed.
  rm work/FILE
  "$program" "${words[@]}" work/FILE >/dev/full 2>err.txt <input.txt
  [ $? = 10 ] && [ -z "$(find work -name '.*.keepass')" ] && [ -s work/FILE ]
  judged "$name: a report that cannot be printed" $?
  rm work/FILE
  works "$name: quietly" '' "$program" "${words[@]:0:1}" -q "${words[@]:1}" work/FILE
  rm work/FILE
  case " $* " in
    *' -p '*)
      "$program" "${words[@]}" work/FILE >out.txt 2>err.txt <&-
      [ $? = 11 ] && [ ! -s out.txt ] && [ "$(cat err.txt)" = 'keepass: input: fault' ] && [ -z "$(ls work)" ]
      judged "$name: standard input closed" $?
      ;;
  esac
  rm -rf work program
}

# imported_on_a_full_disk SOURCE WORD...: a disk on which there is no room for the new file.
imported_on_a_full_disk() {
  local source=$1
  shift
  if ! unshare --mount true 2>/dev/null; then
    echo 'skipped: an import on a full disk; no disk can be mounted here'
    return
  fi
  mkdir -p disk
  # shellcheck disable=SC2016
  unshare --mount bash -c '
    mount -t tmpfs -o size=1m none disk || exit 70
    state disk >before.txt
    "$1" import "${@:3}" "$2" disk/FILE >out.txt 2>err.txt <input.txt
    got=$?
    state disk >after.txt
    exit $got' bash "$program" "$source" "$@" >report.txt 2>&1
  [ $? = 7 ] && [ ! -s out.txt ] && [ "$(cat err.txt)" = 'keepass: disk/FILE: file fault' ] && cmp -s before.txt after.txt
  judged "import $1: a full disk" $?
  rm -rf disk
}

# sealed_imports DATA: databases by each format and each kind of key, byte for byte, and as KeePassXC and pykeepass find them.
sealed_imports() {
  local number=0 form source line password key other others=()
  if [ -n "$(command -v keepassxc-cli)" ]; then others+=(keepassxc); else echo 'skipped: imports in KeePassXC, which is not installed'; fi
  if /usr/bin/python3 -c 'import pykeepass' 2>/dev/null; then others+=(pykeepass); fi
  compared 'a known new database' "$importing/sealed"
  cp "$1/gorilla.psafe3" "$1/keepassxc-export.xml" "$1/keepassxc-4.1-export.xml" "$top/examples/family.xml" "$importing/bitwarden.json" .
  "$importing/make" rows 500 table.csv
  while IFS=$'\x1f' read -r form source line password key; do
    compared "$source in a database, ${password:+by a password} $key" "$importing/sealed" "$program" "$form" "$source" "$line" "$password" "$key"
    rm -f wanted.xml
    printf '%s\n' "$line" | "$importing/importing.py" import -q --plain --format "$form" "$source" wanted.xml
    if [ -n "$key" ]; then continue; fi
    for other in "${others[@]}"; do
      compared "$source in a database, by $other" "$sealing/compare" "$other" wanted.xml FILE "$password"
    done
  done < <(tr ' _' '\037 ' <<'ROWS'
xml family.xml  pw 
xml keepassxc-export.xml  one_two_three_é key-1.key
xml keepassxc-4.1-export.xml   key-32.key
xml keepassxc-4.1-export.xml  one_two_three_é 
csv table.csv  pw 
csv table.csv   key-2.keyx
bitwarden bitwarden.json  pw 
bitwarden bitwarden.json  pw key-2.keyx
psafe3 gorilla.psafe3 correct_horse pw 
psafe3 gorilla.psafe3 correct_horse correct_horse key-64.key
ROWS
  )
  # A key file alone, as KeePassXC opens it; and a table that it exports.
  if [ -n "$(command -v keepassxc-cli)" ]; then
    echo family | QT_QPA_PLATFORM=offscreen keepassxc-cli export -q -f csv "$top/examples/family.kdbx" >table.csv
    compared 'a table of KeePassXC' "$importing/against" "$program" file csv table.csv
    rm -f FILE
    printf 'correct horse\n' | "$program" import -q --format psafe3 --set-key-file key-2.keyx gorilla.psafe3 FILE
    QT_QPA_PLATFORM=offscreen keepassxc-cli ls -q -R -f --no-password -k key-2.keyx FILE 2>report.txt | grep -qx 'Home/Internet/Router'
    judged 'gorilla.psafe3 under a key file alone, in KeePassXC' $?
  fi
  rm -f FILE wanted.xml table.csv
}

# exported_again: a table that is imported and exported is, imported and exported again, the same.
exported_again() {
  rm -f FILE AGAIN
  {
    "$program" import -q --plain --format csv many.csv FILE && "$program" export -f csv --plain FILE >again.csv &&
      "$program" import -q --plain --format csv again.csv AGAIN && "$program" export -f csv --plain AGAIN | cmp - again.csv
  } >report.txt 2>&1
  judged 'a table that is exported and imported again' $?
  rm -f FILE AGAIN again.csv
}

# merged_with_itself: an export of Bitwarden that is imported twice, and merged with the other import and with itself.
merged_with_itself() {
  rm -f FILE AGAIN
  : >input.txt
  works 'an export of Bitwarden' 'Successfully imported database.' "$program" import --plain --format bitwarden "$importing/bitwarden.json" FILE
  cp FILE AGAIN
  works 'an export of Bitwarden, merged with itself' 'Database was not modified by merge operation.' "$program" merge --plain FILE AGAIN
  cmp -s FILE AGAIN
  judged 'an export of Bitwarden stays as it is in a merge with itself' $?
  rm -f FILE AGAIN
}

# columns_passed_over: what is printed of columns of which nothing is imported, which is nothing with -q.
columns_passed_over() {
  local said
  printf 'Tags,Title, Reprompt ,"a\nb",Title,Password\n1,2,3,4,5,6\n' >columns.csv
  said=$'Column passed over: Tags\nColumn passed over: Title\nColumn passed over:  Reprompt \nColumn passed over: a\nb\nSuccessfully imported database.'
  rm -f FILE
  : >input.txt
  works 'columns that are passed over' "$said" "$program" import --plain --format csv columns.csv FILE
  rm -f FILE
  works 'columns that are passed over, quietly' '' "$program" import -q --plain --format csv columns.csv FILE
  rm -f FILE
  if [ -n "$with_pykeepass" ]; then
    printf 'pw\n' >input.txt
    works 'columns that are passed over, of a database' "$said" "$program" import -p --format csv columns.csv FILE
  fi
  : >input.txt
  rm -f FILE columns.csv
}

# imported_files DATA: all of it.
imported_files() {
  local seed=$RANDOM
  compared 'the model of import writes known texts' "$importing/importing.py"
  import_refusals "$1"
  compared 'imports by hand' "$importing/against" "$program" table
  many_times 'each byte of a file of Password Safe' "$importing/against" "$program" bytes
  compared 'an export of Bitwarden with all kinds of items' "$importing/against" "$program" file bitwarden "$importing/bitwarden.json"
  merged_with_itself
  columns_passed_over
  many_times "drawn sources, seed $seed" "$importing/against" "$program" random "$seed" 900
  compared 'a file of Password Gorilla' "$importing/against" "$program" file psafe3 "$1/gorilla.psafe3" 'correct horse'
  compared 'an export of KeePassXC, imported' "$importing/against" "$program" file xml "$1/keepassxc-export.xml"
  compared 'an export of KeePassXC with what KDBX 4.1 added, imported' "$importing/against" "$program" file xml "$1/keepassxc-4.1-export.xml"
  imports_at_the_limits
  "$importing/make" rows 5000 many.csv
  "$importing/make" records 300 many.psafe3 pw
  compared 'many rows' "$importing/against" "$program" file csv many.csv
  exported_again
  compared 'many records' "$importing/against" "$program" file psafe3 many.psafe3 pw
  : >input.txt
  imported_where_no_file_can_be many.csv --plain --format csv
  imported_on_a_full_disk many.csv --plain --format csv
  many_times 'import --plain killed' "$importing/killed" "$program" csv many.csv '' 50
  printf 'pw\npw\n' >input.txt
  imported_where_no_file_can_be many.psafe3 -p --format psafe3
  imported_on_a_full_disk many.csv -p --format csv
  many_times 'import -p killed' "$importing/killed" "$program" csv many.csv pw 10
  if [ -n "$with_pykeepass" ]; then sealed_imports "$1"; else echo 'skipped: imports into databases; pykeepass is not installed'; fi
  rm -rf many.csv many.psafe3 before.txt after.txt report.txt FILE SOURCE
}
