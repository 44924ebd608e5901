# What `attachment-export`, `attachment-import` and `attachment-rm` make of files, for tests/run: it sources this file after tests/merging/checks.bash,
# and has `top`, `program`, `passed` and `failed`.
attachments=$top/tests/attachments

# attachment_refusals DATA: the rows of this folder; and what refuses `ls` refuses these commands in the same way: the rows of tests/opening, with
# the words of each command in turn. No file may be made.
attachment_refusals() {
  rm -f out
  calls "$attachments/rows" "$1"
  awk -F '\t' -v OFS='\t' '
    BEGIN {
      split("attachment-export\t--stdout,attachment-export,attachment-import,attachment-rm", commands, ",")
      files[2] = "\tout"
      files[3] = "\tnote.txt"
      print "file", "note.txt", "milk"
    }
    $1 == "file" { print; next }
    /^sealed: 3\.1,/ && old++ % 5 { next } # a fifth of them
    $2 > 0 && $2 != 2 && $7 == "ls" && $NF == "FILE" {
      turn = count++ % 4 + 1
      $7 = commands[turn]
      print $0 "\tBank\ta" files[turn]
    }' "$top/tests/opening/rows" >rows.txt
  calls rows.txt "$1"
  [ ! -e out ]
  judged 'a refused call makes no file' $?
  rm -f note.txt
}

# content SIZE: so many bytes that are as good as drawn, and no UTF-8 but for the fewest.
content() {
  python3 -c 'import hashlib, sys; sys.stdout.buffer.write(hashlib.shake_128(b"keepass").digest(int(sys.argv[1])))' "$1"
}

# bytes_in_and_out KIND FILE ENTRY WORD...: what is put into a file comes out again, byte for byte; the report, the mode of the new file and the history.
# The words open FILE, whose entry has no attachment `c/d`.
bytes_in_and_out() {
  local kind=$1 entry=$3 size versions mask
  cp "$2" FILE
  chmod 644 FILE
  shift 3
  # Versions that say the same at one time become one at the first change: these have no third column.
  versions=$("$program" history "$@" FILE "$entry" <input.txt | awk 'NF > 2' | wc -l)
  for size in 0 1 65536 5000000; do
    content "$size" >"source $size"
    works "$kind: $size bytes are put in" "Successfully imported attachment source $size as c/d to entry $entry." "$program" attachment-import -f "$@" FILE "$entry" c/d "source $size"
    "$program" attachment-export --stdout "$@" FILE "$entry" c/d <input.txt 2>report.txt | cmp - "source $size" >>report.txt 2>&1
    judged "$kind: $size bytes are printed" $?
    for mask in 000 077; do
      rm -f out
      works "$kind: $size bytes are taken out under umask $mask" "Successfully exported attachment c/d of entry $entry to out." with_mask "$mask" "$program" attachment-export "$@" FILE "$entry" c/d out
      cmp out "source $size" >report.txt 2>&1 && [ "$(stat -c '%a %h %F' out | sed 's/empty //')" = '600 1 regular file' ]
      judged "$kind: $size bytes in a new file of its owner alone" $?
    done
    works "$kind: $size bytes are shown by their number" "  c/d ($size bytes)" shown_sizes "$@" FILE "$entry"
  done
  works "$kind: it is taken away" "Successfully removed attachment c/d from entry $entry." "$program" attachment-rm "$@" FILE "$entry" c/d
  "$program" attachment-export --stdout "$@" FILE "$entry" c/d <input.txt >out.txt 2>err.txt
  [ $? = 2 ] && [ ! -s out.txt ] && [ "$(cat err.txt)" = 'keepass: FILE: no attachment c/d' ]
  judged "$kind: it is gone" $?
  "$program" history "$@" FILE "$entry" <input.txt >report.txt 2>&1
  [ "$(wc -l <report.txt)" = $((versions + 5)) ] && [ "$(head -n 5 report.txt | grep -c '  attachments$')" = 5 ]
  judged "$kind: each change is a version" $?
  works "$kind: the last version but one is restored" '' "$program" edit -q --restore 1 "$@" FILE "$entry"
  "$program" attachment-export --stdout "$@" FILE "$entry" c/d <input.txt 2>report.txt | cmp - 'source 5000000' >>report.txt 2>&1
  judged "$kind: its attachment is there again" $?
  rm -f FILE out 'source '*
}

# with_mask MASK COMMAND...: the command under this umask.
with_mask() (
  umask "$1"
  shift
  exec "$@"
)

# shown_sizes WORD...: the line of the attachment `c/d`.
shown_sizes() {
  "$program" show --show-attachments "$@" | grep -F '  c/d ('
}

# where_a_new_file_cannot_be FILE WORD...: what a disk does not take is a file fault, and nothing else is changed. The words open the file, whose
# entry Bank has the attachment `a` of more than two blocks.
where_a_new_file_cannot_be() {
  local file=$1 fault='keepass: work/out: file fault'
  shift
  rm -rf work
  mkdir work
  cp "$file" work/FILE
  chmod 644 work/FILE
  kept 'a new file that cannot be written whole' 7 "$fault" work within_two_blocks "$program" attachment-export "$@" work/FILE Bank a work/out
  kept 'a folder that is not there' 7 'keepass: none/out: file fault' work "$program" attachment-export "$@" work/FILE Bank a none/out
  cp "$program" program
  chmod 755 . program
  chmod 555 work
  kept 'a new file in a folder that may not be written' 7 "$fault" work as_user ./program attachment-export "$@" work/FILE Bank a work/out
  chmod 755 work
  ln -s nothing work/out
  kept 'a link to nothing in its place' 7 "$fault" work "$program" attachment-export "$@" work/FILE Bank a work/out
  ln -sf FILE work/out
  kept 'a link to a file in its place' 2 'keepass: work/out: file exists' work "$program" attachment-export "$@" work/FILE Bank a work/out
  rm work/out
  mkfifo work/out
  kept 'a pipe in its place' 7 "$fault" work "$program" attachment-export "$@" work/FILE Bank a work/out
  rm work/out
  : >work/out
  kept 'an empty file in its place' 2 'keepass: work/out: file exists' work "$program" attachment-export "$@" work/FILE Bank a work/out
  rm work/out
  # What is left of a call that was cut off is no obstacle.
  printf 'left over' >work/.out.0123456789abcdef.keepass
  works 'an old draft' '' "$program" attachment-export -q "$@" work/FILE Bank a work/out
  rm -f work/out work/.out.*
  # The file is written before the report is printed; bytes that cannot be printed leave everything as it is.
  "$program" attachment-export "$@" work/FILE Bank a work/out >/dev/full 2>err.txt <input.txt
  [ $? = 10 ] && [ -s work/out ] && [ -z "$(find work -name '.*.keepass')" ]
  judged 'a report that cannot be printed' $?
  rm -f work/out
  state work >before.txt
  "$program" attachment-export --stdout "$@" work/FILE Bank a >/dev/full 2>err.txt <input.txt
  [ $? = 10 ] && [ "$(cat err.txt)" = 'keepass: output: could not be written' ] && state work | cmp -s - before.txt
  judged 'bytes that cannot be printed' $?
  "$program" attachment-export "$@" work/FILE Bank a work/out >out.txt 2>err.txt <&-
  [ $? = 11 ] && [ ! -s out.txt ] && [ "$(cat err.txt)" = 'keepass: input: fault' ] && state work | cmp -s - before.txt
  judged 'standard input closed' $?
  rm -rf work program
}

# where_no_attachment_can_be FILE WORD...: likewise of what changes the database.
where_no_attachment_can_be() {
  local file=$1 fault='keepass: work/FILE: file fault'
  shift
  rm -rf work
  mkdir work
  cp "$file" work/FILE
  chmod 640 work/FILE
  content 5000 >work/source
  kept 'an attachment that cannot be written whole' 7 "$fault" work within_two_blocks "$program" attachment-import "$@" work/FILE Bank b work/source
  kept 'a refusal where nothing can be written' 2 'keepass: work/FILE: no attachment b' work within_two_blocks "$program" attachment-rm "$@" work/FILE Bank b
  # The database is another user's here too, so that its folder may be written.
  cp "$program" program
  chmod 755 . program
  chmod 777 work
  chmod 600 work/source
  if [ "$(id -u)" = 0 ]; then
    chown 65534:65534 work/FILE
    kept 'a source that may not be read' 7 'keepass: work/source: file fault' work as_user ./program attachment-import "$@" work/FILE Bank b work/source
    chown 0:0 work/FILE
  fi
  ln -s FILE work/link
  ln -s source work/other
  works 'a link to the database and one to the source' 'Successfully imported attachment work/other as b to entry Bank.' "$program" attachment-import "$@" work/link Bank b work/other
  [ "$(readlink work/link)" = FILE ] && [ "$(stat -c %a work/FILE)" = 640 ] && [ "$(readlink work/other)" = source ]
  judged 'the links and the mode stay' $?
  truncate -s 134217729 work/source
  kept 'a source that is too large' 8 'keepass: work/source: limit passed' work "$program" attachment-import "$@" work/FILE Bank c work/source
  rm -f work/source work/other
  "$program" attachment-rm "$@" work/FILE Bank b >/dev/full 2>err.txt <input.txt
  [ $? = 10 ] && [ -z "$(find work -name '.*.keepass')" ]
  judged 'a removal that cannot be reported' $?
  kept 'it was written' 2 'keepass: work/FILE: no attachment b' work "$program" attachment-rm "$@" work/FILE Bank b
  rm -rf work program
}

# attachments_in_other_programs DATA: databases of other programs.
attachments_in_other_programs() {
  local name password key_file asked=()
  if command -v keepassxc-cli >/dev/null; then asked=(keepassxc); else echo 'skipped: attachments and fields in KeePassXC, which is not installed'; fi
  while IFS=$'\x1f' read -r name password key_file; do
    compared "$name: attachments and fields" "$with_pykeepass" "$attachments/others" "$program" "$1/$name.kdbx" "$password" "$key_file" "${asked[@]}"
  done < <(tr '\t' '\037' <"$1/databases")
}

# attachments_of_files DATA: all of it.
attachments_of_files() {
  local seed=$RANDOM
  compared 'attachments by hand' "$attachments/against" "$program" table
  rm -f one nothing odd long
  many_times "drawn calls on attachments, seed $seed" "$attachments/against" "$program" random "$seed" 300
  rm -f s0 s1 s2 s3
  attachment_refusals "$1"
  : >input.txt
  bytes_in_and_out plain "$top/examples/family.xml" Bank --plain
  printf '%s\n' "$secret" >input.txt
  bytes_in_and_out 'KDBX 3.1' "$1/file-kdbx-3.1.kdbx" Bank
  bytes_in_and_out 'KDBX 4.0' "$1/keepassxc-saved-by-pykeepass.kdbx" Bank
  bytes_in_and_out 'KDBX 4.1' "$1/keepassxc-4.1-aes-argon2d.kdbx" Work/Bank
  cp "$1/keepassxc-saved-by-pykeepass.kdbx" filled.kdbx
  content 5000 >source
  works 'a database with an attachment' '' "$program" attachment-import -q filled.kdbx Bank a source
  where_a_new_file_cannot_be filled.kdbx
  where_no_attachment_can_be filled.kdbx
  if [ -n "$with_pykeepass" ]; then
    compared 'attachments by hand, in databases' "$with_pykeepass" "$attachments/against" "$program" sealed
    attachments_in_other_programs "$1"
  else
    echo 'skipped: attachments in databases; pykeepass is not installed'
  fi
  rm -f rows.txt before.txt after.txt report.txt FILE OLD filled.kdbx source one nothing odd long
}
