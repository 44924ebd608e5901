# What `merge` makes of files, for tests/run: it sources this file after tests/moving/checks.bash, and has `top`, `program`, `passed` and
# `failed`.
merging=$top/tests/merging

# merge_refusals DATA: the rows of this folder; and what refuses `ls` refuses a merge in the same way, the file being the target and then
# a source, by the rows of tests/opening.
merge_refusals() {
  local before
  mkdir refusals
  cd refusals || return
  cp "$1"/*.kdbx "$1"/key-* .
  cp "$1/file-kdbx-chacha20-aeskdf.kdbx" SOURCE
  before=$(stat -c '%n %i %a %y' -- *.kdbx SOURCE && sha256sum -- *.kdbx SOURCE)
  calls "$merging/rows" "$1"
  # With -s the target's line alone is read, and the target is opened first.
  awk -F '\t' -v OFS='\t' '
    $1 == "file" { print; next }
    /^sealed: 3\.1,/ && old++ % 5 { next } # a fifth of them
    $2 > 2 && $7 == "ls" && $NF == "FILE" && !/\t--plain\t/ { $7 = "merge\t-s"; print $0, "SOURCE" }' "$top/tests/opening/rows" >rows.txt
  calls rows.txt "$1"
  awk -F '\t' -v OFS='\t' '
    $1 == "file" { print; next }
    /^sealed: 3\.1,/ && old++ % 5 { next } # a fifth of them
    $2 > 2 && $7 == "ls" && $NF == "FILE" && !/\t--plain\t/ {
      for (at = 8; at < NF; at++) {
        if ($at == "-k") $at = "--key-file-from"
        else if ($at == "--no-password") $at = "--no-password-from"
        else if ($at ~ /^-/) next
      }
      sub(/^input: line 1 /, "input: line 2 ", $3)
      $6 = "one two three é\\n" ($6 == "-" ? "" : $6)
      $7 = "merge"
      $NF = "SOURCE\tFILE"
      print
    }' "$top/tests/opening/rows" >rows.txt
  calls rows.txt "$1"
  diff <(printf '%s\n' "$before") <(stat -c '%n %i %a %y' -- *.kdbx SOURCE && sha256sum -- *.kdbx SOURCE) >report.txt
  judged 'refused merges leave the other files as they were' $?
  cd ..
  rm -r refusals
}

# merges_at_the_limits: a node more, and a longer text, than may be: a merge is refused, and the files are as they were.
merges_at_the_limits() {
  local kind
  : >input.txt
  for kind in nodes text; do
    rm -rf limits
    "$merging/make" $kind limits
    kept "a merge past the limit of the $kind" 8 'keepass: limits/FILE: limit passed' limits "$program" merge --plain limits/FILE limits/SOURCE
  done
  "$merging/make" nodes limits
  works 'as many nodes as may be, merged again' 'Database was not modified by merge operation.' "$program" merge --plain limits/FILE limits/FILE
  rm -rf limits
}

# where_no_merge_can_be KIND FILE SOURCE WORD...: what a disk does not take is a file fault, and the files are as they were. The words open
# both files.
where_no_merge_can_be() {
  local kind=$1 file=$2 source=$3 fault='keepass: work/FILE: file fault' number where got
  shift 3
  rm -rf work
  mkdir work
  cp "$file" work/FILE
  cp "$source" work/SOURCE
  chmod 644 work/FILE work/SOURCE
  kept "$kind: a merge that cannot be written whole" 7 "$fault" work within_two_blocks "$program" merge "$@" work/FILE work/SOURCE
  cp "$program" program
  chmod 755 . program
  chmod 555 work
  kept "$kind: a merge in a folder that may not be written" 7 "$fault" work as_user ./program merge "$@" work/FILE work/SOURCE
  chmod 000 work/SOURCE
  if [ "$(id -u)" = 0 ]; then chown 65534:65534 work/FILE; fi
  kept "$kind: a source that may not be read" 7 'keepass: work/SOURCE: file fault' work as_user ./program merge "$@" work/FILE work/SOURCE
  chmod 755 work
  chmod 444 work/SOURCE
  # What writes nothing needs no room: a dry merge, and a merge of nothing new.
  state work >before.txt
  within_two_blocks "$program" merge -d "$@" work/FILE work/SOURCE >said.txt 2>err.txt <input.txt
  [ $? = 0 ] && grep -qxF 'Successfully merged work/SOURCE into work/FILE.' said.txt && [ ! -s err.txt ] && state work | cmp -s - before.txt
  judged "$kind: a dry merge where nothing can be written" $?
  within_two_blocks "$program" merge "$@" work/FILE work/FILE >out.txt 2>err.txt <input.txt
  [ $? = 0 ] && [ "$(cat out.txt)" = 'Database was not modified by merge operation.' ] && state work | cmp -s - before.txt
  judged "$kind: a merge of nothing new where nothing can be written" $?
  "$program" merge "$@" work/FILE work/SOURCE >out.txt 2>err.txt <&-
  got=$?
  case $kind in
    plain) [ $got = 0 ] && cmp -s said.txt out.txt ;;
    *) [ $got = 11 ] && [ ! -s out.txt ] && [ "$(cat err.txt)" = 'keepass: input: fault' ] && state work | cmp -s - before.txt ;;
  esac
  judged "$kind: standard input closed" $?
  # The file is written before the report is printed.
  number=0
  for where in '>/dev/full' '>&-' '>&- 2>&-' '>/dev/full 2>/dev/full' '2>&-'; do
    number=$((number + 1))
    cp "$file" work/FILE
    eval '"$program" merge "$@" work/FILE work/SOURCE <input.txt >out.txt 2>err.txt' "$where"
    got=$?
    [ $got = $((number < 5 ? 10 : 0)) ] && [ -z "$(find work -name '.*.keepass')" ]
    judged "$kind: a merge with $where: status $got" $?
    works "$kind: a merge with $where is written" 'Database was not modified by merge operation.' "$program" merge "$@" work/FILE work/SOURCE
  done
  # What is left of a call that was cut off, and a file of another mode.
  cp "$file" work/FILE
  chmod 640 work/FILE
  printf 'left over' >work/.FILE.0123456789abcdef.keepass
  works "$kind: a merge where a draft was left" '' "$program" merge -q "$@" work/FILE work/SOURCE
  [ "$(stat -c %a work/FILE)" = 640 ] && [ "$(stat -c %a work/SOURCE)" = 444 ]
  judged "$kind: the files keep their modes" $?
  # A link to the target as a source, and a link to a file as the target.
  ln -s FILE work/link
  works "$kind: the target under another name as a source" 'Database was not modified by merge operation.' "$program" merge "$@" work/FILE work/link
  rm -rf work program said.txt
}

# options_of_merge DATA: the ways in which databases are opened, by short and long names.
options_of_merge() {
  local unchanged='Database was not modified by merge operation.' opened=$1/keepassxc-saved-by-pykeepass.kdbx by_key=$1/keepassxc-chacha20-argon2id.kdbx
  cp "$opened" FILE
  cp "$opened" SOURCE
  printf '%s\n' "$secret" >input.txt
  works 'one line for all' "$unchanged" "$program" merge -s FILE SOURCE
  works 'one line for all, by the long name' "$unchanged" "$program" merge FILE --same-credentials SOURCE SOURCE
  works 'flags joined' '' "$program" merge -dsq FILE SOURCE
  printf '%s\r\n%s\n' "$secret" "$secret" >input.txt
  works 'a line for each' "$unchanged" "$program" merge FILE SOURCE
  printf '%s\n%s\n%s' "$secret" "$secret" "$secret" >input.txt
  works 'a line for each of three' "$unchanged" "$program" merge --dry-run FILE SOURCE FILE
  cp "$by_key" FILE
  : >input.txt
  works 'one key file for all' "$unchanged" "$program" merge -s -k key-2.keyx --no-password FILE "$by_key"
  works 'a key file for each' "$unchanged" "$program" merge -k key-2.keyx --no-password --key-file-from key-2.keyx --no-password-from FILE "$by_key"
  works 'a key file for each, in one word' "$unchanged" "$program" merge --no-password-from --no-password --key-file-from=key-2.keyx --key-file=key-2.keyx FILE "$by_key" "$by_key"
  # A source that has a key file alone, and a target with a password; and the other way round.
  printf '%s\n' "$secret" >input.txt
  cp "$opened" FILE
  works 'a target by its line, a source by its key file' '' "$program" merge -q --key-file-from key-2.keyx --no-password-from FILE "$by_key"
  works 'the same again' "$unchanged" "$program" merge --key-file-from key-2.keyx --no-password-from FILE "$by_key"
  cp "$by_key" FILE
  works 'a target by its key file, a source by its line' '' "$program" merge -q -k key-2.keyx --no-password FILE SOURCE
  works 'the same once more' "$unchanged" "$program" merge FILE SOURCE --no-password -k key-2.keyx
  rm -f FILE SOURCE
}

# merges_of_other_programs DATA: databases of other programs; KeePassXC is asked about some of them.
merges_of_other_programs() {
  local name password key_file asked keepassxc
  keepassxc=$(command -v keepassxc-cli) || echo 'skipped: merged databases in KeePassXC, which is not installed'
  while IFS=$'\x1f' read -r name password key_file; do
    asked=()
    case $name in
      keepassxc-* | pykeepass-4.1-* | file-kdbx-4.1-* | keepass2-3.1-aes) if [ -n "$keepassxc" ]; then asked=(keepassxc); fi ;;
    esac
    compared "$name: two copies merged" "$with_pykeepass" "$merging/others" "$program" "$1/$name.kdbx" "$password" "$key_file" "${asked[@]}"
  done < <(tr '\t' '\037' <"$1/databases")
  if [ -n "$keepassxc" ]; then
    for name in keepassxc-export keepassxc-4.1-export; do
      compared "$name: two copies merged" "$with_pykeepass" "$merging/others" "$program" "$1/$name.xml" - - keepassxc
    done
  fi
  rm -f FILE SOURCE
}

# merged_files DATA: all of it.
merged_files() {
  local seed=$RANDOM
  compared 'merges by hand' "$merging/against" "$program" table
  compared 'merges by hand, in detail' "$merging/against" "$program" details
  many_times "drawn families, seed $seed" "$merging/families" "$program" "$seed" 1000
  many_times "drawn histories, seed $seed" "$merging/histories" "$program" "$seed" 1000
  merge_refusals "$1"
  merges_at_the_limits
  : >input.txt
  cp "$top/examples/family.xml" second.xml
  "$program" add --plain -q second.xml 'Added – neu' <input.txt
  where_no_merge_can_be plain "$top/examples/family.xml" second.xml --plain
  "$changing/make" large large.xml
  cp large.xml second.xml
  "$program" add --plain -q second.xml 'Added – neu' <input.txt
  on_a_full_disk 'plain: a full disk, merged' large.xml 5m merge --plain disk/FILE second.xml
  many_times 'plain: merges killed' "$merging/killed" "$program" large.xml second.xml '' 100 --plain
  printf '%s\n' "$secret" >input.txt
  cp "$1/keepassxc-saved-by-pykeepass.kdbx" second.kdbx
  "$program" add -q second.kdbx 'Added – neu' <input.txt
  where_no_merge_can_be sealed "$1/keepassxc-saved-by-pykeepass.kdbx" second.kdbx -s
  options_of_merge "$1"
  if [ -n "$with_pykeepass" ]; then
    compared 'merges by hand, in databases' "$with_pykeepass" "$merging/against" "$program" sealed
    many_times "drawn families in databases, seed $seed" "$with_pykeepass" "$merging/families" "$program" "$seed" 40 sealed
    printf '%s\n' "$secret" >input.txt
    "$with_pykeepass" "$changing/make" sealed large.kdbx "$secret"
    cp large.kdbx second.kdbx
    "$program" add -q second.kdbx 'Added – neu' <input.txt
    on_a_full_disk 'sealed: a full disk, merged' large.kdbx 5m merge -s disk/FILE second.kdbx
    many_times 'sealed: merges killed' "$merging/killed" "$program" large.kdbx second.kdbx "$secret"$'\n' 100 -s
    merges_of_other_programs "$1"
  else
    echo 'skipped: merges of databases; pykeepass is not installed'
  fi
  rm -rf disk large.xml large.kdbx second.xml second.kdbx rows.txt before.txt after.txt report.txt
}
