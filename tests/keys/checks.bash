# What `db-edit` and `db-create` make of files, for tests/run: it sources this file after tests/moving/checks.bash, and has `top`,
# `program`, `passed` and `failed`.
keys=$top/tests/keys

# refused_keys DATA: the rows of this folder. None of them may leave a file of the name OUT, or a draft of it.
refused_keys() {
  cp "$1"/key-* .
  rm -f OUT
  calls "$keys/rows" "$1"
  compgen -G "OUT" >report.txt
  compgen -G ".OUT.*.keepass" >>report.txt
  [ ! -s report.txt ]
  judged 'a refused call leaves no file' $?
  rm -f bad.keyx changed.keyx
}

# answers NAME STATUS SAID WORD...: the program, which reads input.txt, ends with this status, and this is a line of what it prints,
# or of its refusal.
answers() {
  local name=$1 status=$2 said=$3 got
  shift 3
  "$program" "$@" <input.txt >report.txt 2>&1
  got=$?
  [ "$got" = "$status" ] && grep -qxF -- "$said" report.txt
  judged "$name: status $got" $?
}

# known_rows DATA: the rows that the rules have.
known_rows() {
  cp "$1/keepassxc-aes-argon2d.kdbx" FILE
  chmod 644 FILE
  printf 'one two three é\n' >input.txt
  works 'an entry of a file of KDBX 4.0 is moved' '' "$program" mv -q FILE Bank Work
  answers 'the version after that' 0 'Version: 4.1' db-info FILE
  cp "$1/keepassxc-aes-argon2d.kdbx" FILE
  rm -rf work
  mkdir work
  cp FILE work/FILE
  kept 'KDBX 3.1 of a file with Argon2' 2 'keepass: work/FILE: needs version 4.0' work "$program" db-edit --version 3.1 work/FILE
  kept 'rounds of AES past the limit' 8 'keepass: work/FILE: limit passed' work "$program" db-edit --kdf aes --rounds 4294967297 work/FILE
  printf 'one two three é\nnew\n' >input.txt
  works 'another password' 'Successfully edited the database.' "$program" db-edit -p FILE
  printf 'one two three é\n' >input.txt
  "$program" ls FILE <input.txt >out.txt 2>err.txt
  [ $? = 3 ] && [ ! -s out.txt ]
  judged 'the old password opens it no more' $?
  printf 'new\n' >input.txt
  answers 'the new password opens it' 0 Bank ls FILE
  rm -rf FILE work
}

# where_no_new_key_can_be DATA: what a disk does not take is a file fault, and the file opens under its old key, or there is none.
where_no_new_key_can_be() {
  local fault='keepass: work/FILE: file fault' words=(db-create -p --kdf aes --rounds 10) password=$secret$'\n' long
  rm -rf work
  mkdir work
  cp "$1/keepassxc-saved-by-pykeepass.kdbx" work/FILE
  chmod 644 work/FILE
  printf '%snew\n' "$password" >input.txt
  kept 'db-edit: a draft that cannot be written whole' 7 "$fault" work within_two_blocks "$program" db-edit -p work/FILE
  cp "$program" program
  chmod 755 . program
  chmod 555 work
  kept 'db-edit: a folder that may not be written' 7 "$fault" work as_user ./program db-edit -p work/FILE
  chmod 755 work
  # What is left of a call that was cut off is no obstacle, and a link stays.
  printf 'left over' >work/.FILE.0123456789abcdef.keepass
  works 'db-edit: an old draft' 'Successfully edited the database.' "$program" db-edit -p work/FILE
  ln -s FILE work/link
  printf 'new\n%s' "$password" >input.txt
  works 'db-edit: a link to a file' '' "$program" db-edit -qp work/link
  [ "$(readlink work/link)" = FILE ] && [ "$(stat -c %a work/FILE)" = 644 ]
  judged 'db-edit: the link and the mode stay' $?
  # The file is written before the report is printed.
  printf '%snew\n' "$password" >input.txt
  "$program" db-edit -p work/FILE >/dev/full 2>err.txt <input.txt
  [ $? = 10 ] && [ -z "$(find work -name '.*.keepass')" ]
  judged 'db-edit: a report that cannot be printed' $?
  printf 'new\n' >input.txt
  answers 'db-edit: a report that cannot be printed, and the new password' 0 Bank ls work/FILE
  state work >before.txt
  "$program" db-edit -p work/FILE >out.txt 2>err.txt <&-
  [ $? = 11 ] && [ ! -s out.txt ] && [ "$(cat err.txt)" = 'keepass: input: fault' ] && state work | cmp -s - before.txt
  judged 'db-edit: standard input closed' $?
  rm -rf work
  mkdir work
  printf -v long '%3000s' ''
  kept 'db-create: a file that cannot be written whole' 7 "$fault" work within_two_blocks "$program" "${words[@]}" --name "$long" work/FILE
  chmod 555 work
  kept 'db-create: a folder that may not be written' 7 "$fault" work as_user ./program "${words[@]}" work/FILE
  chmod 755 work
  printf 'left over' >work/.FILE.0123456789abcdef.keepass
  works 'db-create: an old draft' 'Successfully created new database.' "$program" "${words[@]}" work/FILE
  [ "$(stat -c %a work/FILE)" = 600 ]
  judged "db-create: a new file is its owner's alone" $?
  kept 'db-create: again' 2 'keepass: work/FILE: file exists' work within_two_blocks "$program" "${words[@]}" --name "$long" work/FILE
  rm work/FILE
  "$program" "${words[@]}" work/FILE >/dev/full 2>err.txt <input.txt
  [ $? = 10 ] && [ -z "$(find work -name '.*.keepass')" ] && [ -s work/FILE ]
  judged 'db-create: a report that cannot be printed' $?
  rm -rf work program
}

# created_on_a_full_disk: a disk on which there is no room for a new database.
created_on_a_full_disk() {
  if ! unshare --mount true 2>/dev/null; then
    echo 'skipped: a new database on a full disk; no disk can be mounted here'
    return
  fi
  mkdir -p disk
  # shellcheck disable=SC2016
  unshare --mount bash -c '
    mount -t tmpfs -o size=64k none disk || exit 70
    cat /dev/zero >disk/full 2>/dev/null
    state disk >before.txt
    "$1" db-create -p --kdf aes --rounds 10 disk/FILE >out.txt 2>err.txt <input.txt
    got=$?
    state disk >after.txt
    exit $got' bash "$program" >report.txt 2>&1
  [ $? = 7 ] && [ ! -s out.txt ] && [ "$(cat err.txt)" = 'keepass: disk/FILE: file fault' ] && cmp -s before.txt after.txt
  judged 'db-create: a full disk' $?
  rm -rf disk
}

# keys_of_files DATA: all of it.
keys_of_files() {
  local seed=$RANDOM
  refused_keys "$1"
  known_rows "$1"
  where_no_new_key_can_be "$1"
  created_on_a_full_disk
  many_times 'db-create killed' "$keys/killed" "$program" create FILE 50
  if [ -z "$with_pykeepass" ]; then
    echo 'skipped: keys and settings of databases; pykeepass is not installed'
  else
    many_times 'keys and settings by hand' "$with_pykeepass" "$keys/against" "$program" table "$1"
    many_times "drawn keys and settings, seed $seed" "$with_pykeepass" "$keys/against" "$program" random "$seed" 100 "$1"
    many_times 'keys and settings, in pykeepass' "$with_pykeepass" "$keys/others" "$program" pykeepass "$1"
    if [ -n "$(command -v keepassxc-cli)" ]; then
      many_times 'keys and settings, in KeePassXC' "$with_pykeepass" "$keys/others" "$program" keepassxc "$1"
    else
      echo 'skipped: keys and settings in KeePassXC, which is not installed'
    fi
    if [ -n "$(command -v mcs)" ] && [ -e /usr/lib/keepass2/KeePass.exe ]; then
      many_times 'keys and settings, in KeePass 2' "$with_pykeepass" "$keys/others" "$program" keepass2 "$1"
    else
      echo 'skipped: keys and settings in KeePass 2; keepass2 or mono-mcs is not installed'
    fi
    "$with_pykeepass" "$changing/make" sealed large.kdbx "$secret"
    printf '%s\nnew\n' "$secret" >input.txt
    on_a_full_disk 'db-edit: a full disk' large.kdbx 5m db-edit -p disk/FILE
    many_times 'db-edit killed' "$keys/killed" "$program" edit large.kdbx "$secret" 100
  fi
  rm -rf disk large.kdbx before.txt after.txt report.txt FILE OUT
}
