# What `mv`, `rm`, `mkdir` and `rmdir` make of files, for tests/run: it sources this file after tests/changing/checks.bash, and has `top`,
# `program`, `passed` and `failed`.
moving=$top/tests/moving

# command_refusals DATA: what refuses `ls` refuses these commands in the same way: the rows of tests/opening, with the words of each
# command in turn.
command_refusals() {
  awk -F '\t' -v OFS='\t' '
    BEGIN { split("mv,rm,mkdir,rmdir", commands, ","); split("Bank\tWork,Bank,New,Work", paths, ",") }
    $1 == "file" { print; next }
    /^sealed: 3\.1,/ && old++ % 5 { next } # a fifth of them
    $2 > 0 && $2 != 2 && $7 == "ls" && $NF == "FILE" {
      turn = count++ % 4 + 1
      $7 = commands[turn]
      print $0, paths[turn]
    }' "$top/tests/opening/rows" >rows.txt
  calls rows.txt "$1"
}

# compared NAME COMMAND...: a program of this folder that makes many calls and compares them.
compared() {
  local name=$1
  shift
  "$@" >report.txt 2>&1 </dev/null
  judged "$name" $?
}

# at_the_limit_of_nodes: a document of as many groups as may be: another group and a bin are each one too many.
at_the_limit_of_nodes() {
  local limit='keepass: limits/FILE: limit passed'
  rm -rf limits
  mkdir limits
  "$moving/make" limits/FILE
  : >input.txt
  kept 'a group more than may be' 8 "$limit" limits "$program" mkdir --plain limits/FILE New
  kept 'a bin more than may be' 8 "$limit" limits "$program" rmdir --plain limits/FILE Group
  rm -rf limits
}

# where_no_draft_can_be KIND FILE WORD...: what a disk does not take is a file fault, and the file is as it was. The words open the file.
where_no_draft_can_be() {
  local kind=$1 file=$2 fault='keepass: work/FILE: file fault'
  shift 2
  rm -rf work
  mkdir work
  cp "$file" work/FILE
  kept "$kind: a move that cannot be written whole" 7 "$fault" work within_two_blocks "$program" mv "$@" work/FILE Bank Work
  kept "$kind: a removal that cannot be written whole" 7 "$fault" work within_two_blocks "$program" rm "$@" work/FILE Bank
  kept "$kind: a group that cannot be written whole" 7 "$fault" work within_two_blocks "$program" mkdir "$@" work/FILE New
  kept "$kind: a removed group that cannot be written whole" 7 "$fault" work within_two_blocks "$program" rmdir "$@" work/FILE Work
  # A refusal comes before the file is written.
  kept "$kind: a refusal where nothing can be written" 2 'keepass: work/FILE: not found' work within_two_blocks "$program" rm "$@" work/FILE Nothing
  # The file is written before the report is printed.
  "$program" mv "$@" work/FILE Bank Work >/dev/full 2>err.txt <input.txt
  [ $? = 10 ] && [ -z "$(find work -name '.*.keepass')" ]
  judged "$kind: a move that cannot be reported" $?
  lists "$kind: it was written" Bank "$@" work/FILE Work
  rm -r work
}

# nodes_of_other_programs DATA: databases of other programs; KeePassXC is asked about some of them, and about its own exports.
nodes_of_other_programs() {
  local name password key_file asked keepassxc
  keepassxc=$(command -v keepassxc-cli) || echo 'skipped: moved and removed nodes in KeePassXC, which is not installed'
  while IFS=$'\x1f' read -r name password key_file; do
    asked=()
    case $name in
      keepassxc-* | pykeepass-4.1-* | file-kdbx-4.1-* | keepass2-3.1-aes) if [ -n "$keepassxc" ]; then asked=(keepassxc); fi ;;
    esac
    compared "$name: nodes moved and removed" "$with_pykeepass" "$moving/others" "$program" "$1/$name.kdbx" "$password" "$key_file" "${asked[@]}"
  done < <(tr '\t' '\037' <"$1/databases")
  if [ -z "$keepassxc" ]; then return; fi
  for name in keepassxc-export keepassxc-4.1-export; do
    compared "$name: nodes moved and removed" "$with_pykeepass" "$moving/others" "$program" "$1/$name.xml" - - keepassxc
  done
}

# moved_files DATA: all of it.
moved_files() {
  local seed=$RANDOM
  compared 'the model writes known texts' "$moving/model.py"
  calls "$moving/rows" "$1"
  command_refusals "$1"
  compared 'calls by hand' "$moving/against" "$program" table
  compared "drawn calls, seed $seed" "$moving/against" "$program" random "$seed" 400
  at_the_limit_of_nodes
  : >input.txt
  where_no_draft_can_be plain "$top/examples/family.xml" --plain
  "$changing/make" large large.xml
  on_a_full_disk 'plain: a full disk, moved' large.xml 5m mkdir --plain disk/FILE New
  many_times 'plain: moves killed' "$moving/killed" "$program" large.xml '' 50 --plain
  printf '%s\n' "$secret" >input.txt
  where_no_draft_can_be sealed "$1/keepassxc-saved-by-pykeepass.kdbx"
  if [ -n "$with_pykeepass" ]; then
    compared 'calls by hand, in databases' "$with_pykeepass" "$moving/against" "$program" sealed
    "$with_pykeepass" "$changing/make" sealed large.kdbx "$secret"
    on_a_full_disk 'sealed: a full disk, moved' large.kdbx 5m rm disk/FILE Title
    many_times 'sealed: moves killed' "$moving/killed" "$program" large.kdbx "$secret" 50
    for name in file-kdbx-chacha20-aeskdf pykeepass-twofish-argon2id keepass2-3.1-aes; do
      compared "$name: drawn calls, seed $seed" "$with_pykeepass" "$moving/against" "$program" found "$seed" 25 "$1/$name.kdbx" "$secret" ''
    done
    nodes_of_other_programs "$1"
  else
    echo 'skipped: moved and removed nodes in databases; pykeepass is not installed'
  fi
  rm -rf disk large.xml large.kdbx rows.txt before.txt after.txt report.txt FILE OLD MERGED
}
