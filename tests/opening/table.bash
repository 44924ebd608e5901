# The listings of databases, and the table of calls, for tests/run and tests/opening/run: they source this file, and have
# `program`, `passed` and `failed`.
. "$(dirname "${BASH_SOURCE[0]}")/../files.bash"

# changed CHANGE...: does to the file FILE what a row says.
changed() {
  local byte
  case $1 in
    flip)
      byte=$(od -An -v -tu1 -j "$2" -N 1 FILE)
      printf -v byte '\\x%02x' $((byte ^ 1))
      printf '%b' "$byte" | dd of=FILE bs=1 seek="$2" conv=notrunc status=none
      ;;
    cut) truncate -s "$2" FILE ;;
    put) printf '%b' "$(sed 's/../\\x&/g' <<<"$3")" | dd of=FILE bs=1 seek="$2" conv=notrunc status=none ;;
  esac
}

# called NAME STATUS WORD...: calls the program with the input in input.txt, and compares its status with STATUS, and
# what it prints with want-out.txt and want-err.txt. Every file of the folder must stay as it is, its permissions and time of change too.
called() {
  local name=$1 status=$2 got before
  shift 2
  before=$(files_seen)
  "$program" "$@" >out.txt 2>err.txt <input.txt
  got=$?
  if [ "$got" = "$status" ] && cmp -s out.txt want-out.txt && cmp -s err.txt want-err.txt; then
    passed=$((passed + 1))
  else
    failed=$((failed + 1))
    echo "FAILED: $name: status $got instead of $status"
    diff want-out.txt out.txt
    diff want-err.txt err.txt
  fi
  may_touch "$name" 0 "$before"
}

# calls ROWS DATA: every row of a table of calls. README.md beside this file says how a row is read.
calls() {
  local LC_ALL=C columns name status said file line words letters
  mkdir -p folder
  while IFS=$'\t' read -r -a columns; do
    name=${columns[0]-} status=${columns[1]-} said=${columns[2]-}
    case $name in
      '' | '#'*) continue ;;
      file) printf '%s' "$said" >"$status"; continue ;;
    esac
    file=${columns[3]} line=${columns[5]} words=("${columns[@]:6}")
    rm -f FILE
    case $file in
      -) ;;
      =*) base64 -d <<<"${file#=}" >FILE ;;
      *) cp "$2/$file" FILE; chmod 644 FILE ;;
    esac
    # shellcheck disable=SC2086
    changed ${columns[4]}
    while [[ $line =~ \{([0-9]+)\} ]]; do
      printf -v letters '%*s' "${BASH_REMATCH[1]}" ''
      line=${line/"${BASH_REMATCH[0]}"/"${letters// /a}"}
    done
    if [ "$line" = - ]; then line=; fi
    printf '%b' "$line" >input.txt
    : >want-out.txt
    : >want-err.txt
    if [ "$said" = - ]; then said=; fi
    if [ "$status" = 0 ]; then printf '%b' "$said" >want-out.txt; else printf 'keepass: %s\n' "$said" >want-err.txt; fi
    called "$name" "$status" "${words[@]/#\'\'/}"
  done <"$1"
  rm -f FILE
}

# listing NAME PASSWORD KEYFILE OPTION... GROUP: lists a database, and compares with want-out.txt. An empty password, key file
# or group is none.
listing() {
  local name=$1 password=$2 key_file=$3 group=${*: -1} credentials=()
  shift 3
  if [ -n "$key_file" ]; then credentials+=(-k "$key_file"); fi
  if [ -n "$password" ]; then printf '%s\n' "$password" >input.txt; else credentials+=(--no-password); : >input.txt; fi
  : >want-err.txt
  called "$name $*" 0 ls "${credentials[@]}" "${@:1:$#-1}" FILE ${group:+"$group"}
}

# listings DATA: each database on the list of a folder, as other programs list it. A file of listings has lines `$ ls` with the
# options and the group, by tabs, and the listing below each.
listings() {
  local name password key_file line words
  while IFS=$'\x1f' read -r name password key_file; do
    cp "$1/$name.kdbx" FILE
    words=()
    while IFS= read -r line; do
      case $line in
        $'$ ls\t'*)
          if [ ${#words[@]} -gt 0 ]; then listing "$name" "$password" "$key_file" "${words[@]}"; fi
          IFS=$'\x1f' read -r -a words <<<"${line//$'\t'/$'\x1f'}"$'\x1f'
          words=("${words[@]:1}")
          : >want-out.txt
          ;;
        *) printf '%s\n' "$line" >>want-out.txt ;;
      esac
    done < <(cat "$1/$name.ls")
    listing "$name" "$password" "$key_file" "${words[@]}"
  done < <(tr '\t' '\037' <"$1/databases")
  rm -f FILE
}
