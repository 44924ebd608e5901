# What a file has beside its owner, group and mode: an access control list, and attributes of users. The program puts a new
# file in the place of the one that it changes, and can give it neither, so the script does. It reads this file where it has
# found either at a file that the words name, or at the folder of one.

# Whether `ls` shows that a file, or a folder, has an access control list.
has_list() {
  [[ $(LC_ALL=C ls -ld -- "$1" 2>/dev/null) = ??????????+* ]]
}

# Keeps what a file has that takes another's place. Fails where it has nothing that could be lost, and its folder gives
# nothing to a new file. The file is held open, so that none gets its number which a session writes after another one.
remember() {
  local file
  named=$1 replaced='' list='' attributes='' is_listed=''
  file=$(readlink -f -- "$1" && printf .) && file=${file%??} && number=$(stat -c %d:%i -- "$file" 2>/dev/null) || return
  if has_list "$file"; then is_listed=1; fi
  attributes=$(getfattr -d -e base64 --absolute-names -- "$file" 2>/dev/null)
  if [ -z "$is_listed$attributes" ] && ! has_list "${file%/*}/"; then return 1; fi
  list=$(getfacl -cEn -- "$file" 2>/dev/null)
  { exec {old_file}<"$file"; } 2>/dev/null
  replaced=$file
}

# Gives the new file what the old one had, after a call with this status, and sets `lost` to lines on what it has not got. A
# refusal has replaced no file.
give_back() {
  lost=''
  case $1 in [1-8] | 11 | 12) return ;; esac
  if [ -z "$replaced" ] || [ "$(stat -c %d:%i -- "$replaced" 2>/dev/null || printf %s "$number")" = "$number" ]; then return; fi
  if [ -n "$is_listed" ] || has_list "$replaced"; then
    if [ -z "$list" ] || ! setfacl --set-file=- -- "$replaced" <<<"$list" 2>/dev/null; then
      lost+="keepass: $named: its access control list was not kept"$'\n'
    fi
  fi
  if [ -n "$attributes" ] && ! setfattr --restore=- <<<"$attributes" 2>/dev/null; then
    lost+="keepass: $named: its extended attributes were not kept"$'\n'
  fi
}

# The status of what a call wrote, by its command and its own status. Lines of a session that come before a refusal have written, perhaps;
# at 7 the file may be another program's.
status_of_writing() {
  case $1:$2 in open:7) printf 7 ;; open:*) printf 0 ;; *) printf '%s' "$2" ;; esac
}

# Runs the program on the words of a call that changes this file, and ends as the program ended. A signal is handed on to
# it, and ends the script too.
run_and_give_back() {
  local signal heard='' by='' child='' status
  for signal in HUP INT QUIT TERM; do trap "heard=$signal; kill \$child 2>/dev/null" "$signal"; done
  # What runs beside the script would have no input.
  if { : <&0; } 2>/dev/null; then "$program" "$@" <&0 & else "$program" "$@" <&- & fi
  child=$!
  if [ -n "$heard" ]; then kill "$child" 2>/dev/null; fi
  while :; do
    wait "$child"
    status=$?
    if [ -z "$heard" ]; then break; fi
    by=$heard heard=''
  done
  give_back "$(status_of_writing "$1" "$status")"
  if [ -n "$lost" ]; then printf '%s' "$lost" >&2; fi
  if [ -n "$by" ]; then
    trap - "$by"
    kill -"$by" $$
  fi
  exit "$status"
}
