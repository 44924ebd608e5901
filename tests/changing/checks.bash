# What `add` and `edit` make of files, for tests/run: it sources this file after tests/opening/table.bash and tests/writing/checks.bash,
# and has `top`, `program`, `passed` and `failed`.
changing=$top/tests/changing
secret='one two three é'

# judged NAME STATUS: what was tried went right, if the status is 0; otherwise report.txt has what went wrong.
judged() {
  if [ "$2" = 0 ]; then passed=$((passed + 1)); else
    failed=$((failed + 1))
    echo "FAILED: $1"
    head -c 2000 report.txt
  fi
}

# state FOLDER: every file of a folder: its bytes, its kind, number, permissions, and the time of its last change.
state() (
  cd "$1" && find . -mindepth 1 -printf '%p %y %i %m %s %T@ %l\n' | LC_ALL=C sort && find . -type f -print0 | LC_ALL=C sort -z | xargs -0r sha256sum
)
export -f state

# kept NAME STATUS SAID FOLDER COMMAND...: the command, which reads input.txt, ends with this status and this line, prints nothing,
# and leaves every file of the folder as it was.
kept() {
  local name=$1 status=$2 said=$3 folder=$4 got
  shift 4
  state "$folder" >before.txt
  "$@" >out.txt 2>err.txt <input.txt
  got=$?
  state "$folder" >after.txt
  {
    echo "status $got instead of $status"
    cat out.txt err.txt
    diff before.txt after.txt
  } >report.txt 2>&1
  [ "$got" = "$status" ] && [ ! -s out.txt ] && [ "$(cat err.txt)" = "$said" ] && cmp -s before.txt after.txt
  judged "$name" $?
}

# works NAME SAID COMMAND...: the command, which reads input.txt, ends with status 0 and prints this line, or nothing where there is
# none. No draft may be left, and one file at most may be another one than before: the one that the command writes. Drafts that lay
# there before do not count.
works() {
  local name=$1 said=$2 got before
  shift 2
  before=$(files_seen | grep -v '/\.[^/]*\.[0-9a-f]\{16\}\.keepass$')
  "$@" >out.txt 2>err.txt <input.txt
  got=$?
  {
    echo "status $got"
    cat out.txt err.txt
    find . -name '.*.keepass'
  } >report.txt 2>&1
  [ "$got" = 0 ] && [ ! -s err.txt ] && [ "$(cat out.txt)" = "$said" ] && [ -z "$(find . -name '.*.keepass')" ]
  judged "$name" $?
  may_touch "$name" 1 "$before"
}

# lists NAME TITLE WORD...: the listing under input.txt has this line.
lists() {
  local name=$1 title=$2
  shift 2
  "$program" ls "$@" <input.txt >report.txt 2>&1 && grep -qxF -- "$title" report.txt
  judged "$name" $?
}

# as_user COMMAND...: the command by a user who is not the superuser, to whom permissions mean something.
as_user() {
  if [ "$(id -u)" = 0 ]; then setpriv --reuid=65534 --regid=65534 --clear-groups "$@"; else "$@"; fi
}

# refusals_of_opening DATA: what refuses `ls` refuses `add` and `edit` in the same way: the rows of tests/opening, with the words of
# these commands, in turns.
refusals_of_opening() {
  awk -F '\t' -v OFS='\t' '
    $1 == "file" { print; next }
    /^sealed: 3\.1,/ && old++ % 5 { next } # a fifth of them
    $2 > 0 && $2 != 2 && $7 == "ls" && $NF == "FILE" {
      if (count++ % 2) { $7 = "add\t-u\tme"; print $0, "New" } else { $7 = "edit\t-u\tme"; print $0, "Bank" }
    }' "$top/tests/opening/rows" >rows.txt
  calls rows.txt "$1"
}

# at_the_limits_of_changes: documents with as many nodes as may be, with a text as long as may be, and an entry of the last moment.
at_the_limits_of_changes() {
  local limit='limit passed'
  rm -rf limits
  mkdir limits
  "$changing/make" limits
  : >input.txt
  kept 'an entry more than may be' 8 "keepass: limits/nodes/FILE: $limit" limits/nodes "$program" add --plain limits/nodes/FILE New
  kept 'a version more than may be' 8 "keepass: limits/nodes/FILE: $limit" limits/nodes "$program" edit --plain -u me limits/nodes/FILE Title
  kept 'a text longer than may be' 8 "keepass: limits/text/FILE: $limit" limits/text "$program" add --plain limits/text/FILE New
  kept 'a time past the last' 8 "keepass: limits/time/FILE: $limit" limits/time "$program" edit --plain -u me limits/time/FILE Title
  works 'an entry beside one of the last moment' 'Successfully added entry New.' "$program" add --plain limits/time/FILE New
  rm -rf limits
}

# within_two_blocks COMMAND...: runs a command that can write no more than 2,048 bytes into a file.
within_two_blocks() (
  trap '' XFSZ
  ulimit -f 2
  exec "$@"
)

# on_a_full_disk NAME FILE SIZE WORD...: the words, on a copy of the file on a disk of this size, are a file fault, and the file is as
# it was. The disk is there for these commands alone.
on_a_full_disk() {
  local name=$1 file=$2 size=$3
  shift 3
  mkdir -p disk
  if ! unshare --mount true 2>/dev/null; then
    echo "skipped: $name; no disk can be mounted here"
    return
  fi
  # shellcheck disable=SC2016
  unshare --mount bash -c '
    mount -t tmpfs -o "size=$2" none disk && cp "$3" disk/FILE || exit 70
    state disk >before.txt
    "$1" "${@:4}" >out.txt 2>err.txt <input.txt
    got=$?
    state disk >after.txt
    exit $got' bash "$program" "$size" "$file" "$@" >report.txt 2>&1
  [ $? = 7 ] && [ ! -s out.txt ] && [ "$(cat err.txt)" = 'keepass: disk/FILE: file fault' ] && cmp -s before.txt after.txt
  judged "$name" $?
}

# where_nothing_can_be_written KIND FILE WORD...: what a disk does not take is a file fault, and the file is as it was. KIND is
# `plain` or `sealed`, and the words are those that open the file.
where_nothing_can_be_written() {
  local kind=$1 file=$2 fault='keepass: work/FILE: file fault'
  shift 2
  rm -rf work
  mkdir work
  cp "$file" work/FILE
  chmod 644 work/FILE
  kept "$kind: a draft that cannot be written whole" 7 "$fault" work within_two_blocks "$program" edit "$@" -u me work/FILE Bank
  kept "$kind: an entry that cannot be written whole" 7 "$fault" work within_two_blocks "$program" add "$@" work/FILE New
  cp "$program" program
  chmod 755 . program
  chmod 555 work
  kept "$kind: a folder that may not be written" 7 "$fault" work as_user ./program edit "$@" -u me work/FILE Bank
  chmod 755 work
  rm -r work program
}

# whatever_is_in_the_way KIND FILE WORD...: what is no obstacle.
whatever_is_in_the_way() {
  local kind=$1 file=$2 mode where number got
  shift 2
  rm -rf work
  mkdir work
  cp "$file" work/FILE
  cp "$program" program
  chmod 755 . program
  chmod 777 work
  for mode in 600 640 664; do
    chmod $mode work/FILE
    if [ "$(id -u)" = 0 ]; then chown 65534:65534 work/FILE; fi
    works "$kind: a file of mode $mode" '' as_user ./program edit -q "$@" -u "$mode" work/FILE Bank
    [ "$(stat -c %a work/FILE)" = $mode ]
    judged "$kind: a file of mode $mode keeps it" $?
  done
  rm program
  chmod 644 work/FILE
  # What is left of a call that was cut off, and a file with the name that drafts once had.
  printf 'left over' >work/.FILE.0123456789abcdef.keepass
  printf 'another file' >work/FILE.part
  works "$kind: an old draft" '' "$program" edit -q "$@" -u me work/FILE Bank
  [ "$(cat work/FILE.part)" = 'another file' ]
  judged "$kind: a file with another name is as it was" $?
  rm work/FILE.part
  # A file under the name of a link: the link stays, and the file that it names is the new one.
  cp work/FILE work/real
  ln -sf real work/link
  kept "$kind: a link to a file, refused" 2 'keepass: work/link: already there' work "$program" add "$@" work/link Bank
  works "$kind: a link to a file" 'Successfully added entry Under a link.' "$program" add "$@" work/link 'Under a link'
  lists "$kind: a link to a file, listed" 'Under a link' "$@" work/real
  [ "$(readlink work/link)" = real ]
  judged "$kind: the link stays" $?
  # Standard streams that are closed or full: status 10, and the file is written.
  number=0
  for where in '>&-' '>/dev/full' '>&- 2>&-' '>/dev/full 2>/dev/full' '2>&-'; do
    number=$((number + 1))
    eval '"$program" add "$@" work/FILE "Added $number" <input.txt >out.txt 2>err.txt' "$where"
    got=$?
    [ $got = $((number < 5 ? 10 : 0)) ] && [ -z "$(find work -name '.*.keepass')" ]
    judged "$kind: an entry with $where: status $got" $?
    lists "$kind: an entry with $where, listed" "Added $number" "$@" work/FILE
  done
  state work >before.txt
  "$program" add "$@" work/FILE Bank >out.txt 2>/dev/full <input.txt
  [ $? = 10 ] && [ ! -s out.txt ] && state work | cmp -s - before.txt
  judged "$kind: a refusal that cannot be reported" $?
  "$program" add -p "$@" work/FILE New >out.txt 2>err.txt <&-
  [ $? = 11 ] && [ ! -s out.txt ] && [ "$(cat err.txt)" = 'keepass: input: fault' ] && state work | cmp -s - before.txt
  judged "$kind: standard input closed" $?
  rm -r work
}

# options_of_changes: every option, by its letter and by its name, in a plain document; the values by another reader.
options_of_changes() {
  cp "$top/examples/family.xml" FILE
  printf 'first\n' >input.txt
  works 'all options of add' 'Successfully added entry New – neu.' "$program" add --plain -p -u ada --url 'https://new.example/?a=1&b=2' --notes $'one\ntwo' FILE 'Work/New – neu'
  cp FILE second
  printf 'first <&> é\n' >input.txt
  works 'long names, and values after a sign' '' "$program" edit --plain --quiet --password-prompt --username=ada FILE '/Work/New – neu'
  printf '\n' >input.txt
  works 'an empty password' 'Successfully edited entry Bank.' "$program" edit --plain -p FILE Bank
  works 'flags joined, and a value in the same word' '' "$program" edit --plain -qp -unobody FILE Bank
  printf 'otpauth://totp/x?secret=GE\n' >input.txt
  works 'a one-time code' 'Successfully edited entry Bank.' "$program" edit --plain --otp FILE Bank
  printf 'second\n\n' >input.txt
  works 'a one-time code taken away, after a password' 'Successfully edited entry Bank.' "$program" edit --plain --otp -p FILE Bank
  printf '\n' >input.txt
  works 'a one-time code taken away that is not there' '' "$program" edit --plain -q --otp FILE Bank
  : >input.txt
  works 'a title with a slash in it' 'Successfully edited entry a/b.' "$program" edit --plain -t=a/b FILE 'Wi-Fi at home'
  works 'a title that is taken' 'Successfully edited entry Bank.' "$program" edit --plain --title Bank FILE a/b
  works 'options after the path' 'Successfully edited entry Mail.' "$program" edit FILE Mail --plain --notes -
  works 'a path that begins with a dash' 'Successfully added entry -x.' "$program" add --plain -- FILE -x
  works 'an empty value' 'Successfully edited entry -x.' "$program" edit --plain -u '' -- FILE -x
  works 'no title at all' 'Successfully added entry .' "$program" add --plain FILE Work/
  lists 'no title at all, listed' '' --plain FILE Work
  rm -f FILE second
}

# two_edits WORD...: adds an entry to the first group, and edits it and `Bank` twice; the new one gets a one-time code at last. The words
# open FILE, and `lines` has the line that they need, if any.
two_edits() {
  local group bank
  printf '%s' "$lines" >input.txt
  group=$("$program" ls "$@" FILE <input.txt | sed -n 's|/$||p' | head -1)
  bank=$("$program" ls -Rf "$@" FILE <input.txt | grep -m 1 -E '(^|/)Bank$')
  printf '%sfirst <&> é\n' "$lines" >input.txt
  works "$name: an entry is added" 'Successfully added entry New – neu.' "$program" add "$@" -p -u ada --url 'https://new.example/?a=1&b=2' --notes $'one\ntwo' FILE "$group/New – neu"
  printf '%ssecond\n' "$lines" >input.txt
  works "$name: it is edited" 'Successfully edited entry New – neu.' "$program" edit "$@" -p -u ada.l FILE "/$group/New – neu"
  printf '%s%s\n' "$lines" 'otpauth://totp/x?secret=GEZDGNBVGY3TQOJQ&digits=8' >input.txt
  works "$name: it is edited again" 'Successfully edited entry Renamed – 邮件.' "$program" edit "$@" -t 'Renamed – 邮件' --url '' --notes three --otp FILE "$group/New – neu"
  printf '%s' "$lines" >input.txt
  works "$name: an entry that was there" '' "$program" edit "$@" -q -u 'new user' FILE "$bank"
  printf '%snew password\n' "$lines" >input.txt
  works "$name: an entry that was there, again" 'Successfully edited entry Bank.' "$program" edit "$@" -p --notes 'new notes' FILE "$bank"
}

# of_version VERSION: FILE has this number of its version.
of_version() {
  od -An -tx4 -j 8 -N 4 FILE >report.txt
  [ "$(tr -d ' ' <report.txt)" = "$1" ]
  judged "$name: the version stays" $?
}

# seen_by HOW BEFORE PASSWORD KEYFILE: what another program reads of FILE.
seen_by() {
  "$changing/compare" "$1" "$2" FILE "$3" "$4" >report.txt 2>&1 </dev/null
  judged "$name: in $1" $?
}

# entries_of_other_programs DATA: databases of other programs, and an export.
entries_of_other_programs() {
  local name password key_file lines words keepassxc
  keepassxc=$(command -v keepassxc-cli) || echo 'skipped: changed databases in KeePassXC, which is not installed'
  if [ -z "$with_pykeepass" ]; then echo 'skipped: changed databases in pykeepass, which is not installed'; fi
  while IFS=$'\x1f' read -r name password key_file; do
    cp "$1/$name.kdbx" FILE
    chmod 644 FILE
    words=()
    if [ -n "$key_file" ]; then words+=(-k "$key_file"); fi
    lines="$password"$'\n'
    if [ -z "$password" ]; then
      words+=(--no-password)
      lines=
    fi
    two_edits "${words[@]}"
    case $name in
      *-3.1 | *-3.1-*) of_version 00030001 ;;
    esac
    if [ -n "$with_pykeepass" ]; then seen_by pykeepass "$1/$name.kdbx" "$password" "$key_file"; fi
    if [ -n "$keepassxc" ]; then seen_by keepassxc - "$password" "$key_file"; fi
  done < <(tr '\t' '\037' <"$1/databases")
  for name in keepassxc-export keepassxc-4.1-export; do
    cp "$1/$name.xml" FILE
    lines=
    two_edits --plain
    seen_by documents "$1/$name.xml" - -
    if [ -n "$keepassxc" ]; then
      rm -f imported.kdbx
      keepassxc_import FILE imported.kdbx >report.txt 2>&1 && mv imported.kdbx FILE && "$changing/compare" keepassxc - FILE 'one two three' '' >report.txt 2>&1
      judged "$name: imported by KeePassXC" $?
    fi
  done
  rm -f FILE
}

# many_times NAME COMMAND...: a program of this folder that tries something many times, and prints what came of it.
many_times() {
  local name=$1
  shift
  "$@" >report.txt 2>&1 </dev/null
  judged "$name" $?
  echo "$name: $(head -1 report.txt)"
}

# changed_files DATA: all of it.
changed_files() {
  calls "$changing/rows" "$1"
  refusals_of_opening "$1"
  at_the_limits_of_changes
  : >input.txt
  where_nothing_can_be_written plain "$top/examples/family.xml" --plain
  whatever_is_in_the_way plain "$top/examples/family.xml" --plain
  "$changing/make" large large.xml
  on_a_full_disk 'plain: a full disk' large.xml 5m edit --plain -u me disk/FILE Title
  many_times 'plain: killed' "$changing/killed" "$program" large.xml '' 50 --plain
  cp "$top/examples/family.xml" FILE
  many_times 'plain: two at once' "$changing/together" "$program" FILE '' 20 --plain
  printf '%s\n' "$secret" >input.txt
  where_nothing_can_be_written sealed "$1/keepassxc-saved-by-pykeepass.kdbx"
  whatever_is_in_the_way sealed "$1/keepassxc-saved-by-pykeepass.kdbx"
  if [ -n "$with_pykeepass" ]; then
    "$with_pykeepass" "$changing/make" sealed large.kdbx "$secret"
    on_a_full_disk 'sealed: a full disk' large.kdbx 5m edit -u me disk/FILE Title
    many_times 'sealed: killed' "$changing/killed" "$program" large.kdbx "$secret" 100
    many_times 'versions of files of KDBX 3.1' "$with_pykeepass" "$changing/versions" "$program" $(command -v keepassxc-cli >/dev/null && echo keepassxc)
    many_times 'orders to change the key' "$with_pykeepass" "$changing/ordered" "$program" "$1"
  fi
  cp "$1/keepassxc-saved-by-pykeepass.kdbx" FILE
  many_times 'sealed: two at once' "$changing/together" "$program" FILE "$secret" 20
  options_of_changes
  many_times 'plain: one-time codes' "$changing/codes" "$program"
  entries_of_other_programs "$1"
  rm -rf disk large.xml large.kdbx rows.txt before.txt after.txt report.txt
}
