# What can be done about a refusal. The table is docs/hints.toml, and terminal/tables.bash has it in `hint_rows`.

# A name in the form in which the shell reads it, or a line of a session.
quoted() {
  if [ -n "$in_session" ] && [[ $1 = *' '* ]]; then
    printf '"%s"' "$1"
  elif [[ $1 =~ ^[A-Za-z0-9_./+,:@%=-]+$ && $1 != -* ]]; then printf '%s' "$1"; else printf '%q' "$1"; fi
}

# A hint with its places filled in: {file}, {database} and so on.
filled() {
  local text=$1 name value
  if [ -n "$in_session" ]; then text=$(as_line "$text"); fi
  while [[ $text =~ ^([^{]*)\{([a-z]+)\}(.*)$ ]]; do
    name=${BASH_REMATCH[2]}
    case $name in
      file) value=$(quoted "$subject") ;;
      database) value=$(quoted "${positions[0]-DATABASE}") ;;
      entry) value=$(quoted "${positions[1]-ENTRY}") ;;
      opened) value=$(opening_options) ;;
      python) value=\'${subject//\'/\\\'}\' ;;
      *) value=${found[$name]-} ;;
    esac
    printf '%s%s' "${BASH_REMATCH[1]}" "$value"
    text=${BASH_REMATCH[3]}
  done
  printf '%s' "$text"
}

# A hint in which a command of a session has the words of a line.
as_line() {
  local text=$1 name
  for name in $line_commands; do
    if [[ $text = *"keepass $name "* ]]; then
      text=${text//"keepass $name "/"$name "}
      text=${text//'{opened}{database} '/}
    fi
  done
  printf '%s' "$text"
}

# The options with which the call opens its database, as another call would have them.
opening_options() {
  if is_given plain; then printf -- '--plain '; fi
  if is_given no-password; then printf -- '--no-password '; fi
  if is_given key-file; then printf -- '-k %s ' "$(quoted "${given[key-file]}")"; fi
}

# The first bytes of the file that a refusal is about, in hexadecimal.
first_bytes() {
  head -c "$1" -- "$subject" 2>/dev/null | od -An -v -tx1 | tr -d ' \n'
}

# A number of the key derivation in the header of a file, by the letter of its name.
kdf_number() {
  local pair number='' name
  printf -v name '%02x' "'$1"
  if [[ $(first_bytes 4096) =~ 0[45]01000000${name}0([48])000000([0-9a-f]{16}) ]]; then
    pair=${BASH_REMATCH[2]:0:BASH_REMATCH[1] * 2}
    while [ -n "$pair" ]; do number=${pair:0:2}$number pair=${pair:2}; done
    printf '%u' "0x$number"
  fi
}

# Whether the header's own hash is wrong, which has nothing to do with the password.
has_wrong_hash() {
  local kept=${refusal#*: kept } found_hash=${refusal##* } bytes
  kept=${kept%% *}
  bytes=$(first_bytes 65600)
  if [[ $bytes != *"$kept"* ]]; then return 1; fi
  bytes=${bytes%%"$kept"*}
  [ "$(head -c $((${#bytes} / 2)) -- "$subject" | sha256sum | cut -d' ' -f1)" = "$found_hash" ]
}

# Whether another call holds the lock of the file that a refusal is about.
is_held() {
  [ -f "$subject" ] && command -v flock >/dev/null && ! flock -ns 9 9<"$subject"
}

# What is wrong with a file that could not be read or written, as far as it can be seen.
find_fault() {
  local folder=. found_fault=''
  case $subject in */*) folder=${subject%/*}/ ;; esac
  if [ -d "$subject" ]; then
    found_fault='it is a folder, and a file is needed'
  elif [ -p "$subject" ]; then
    found_fault='it is a pipe, and a file is needed: write it into a file first'
  elif [ -b "$subject" ] || [ -c "$subject" ] || [ -S "$subject" ]; then
    found_fault='it is a device or a socket, and a file is needed'
  elif [ -e "$subject" ] && ! [ -r "$subject" ]; then
    found_fault='you have no permission to read it: see ls -l'
  elif [ "$subject" = "$target" ] && is_held; then
    found_fault='another call is writing it: try again when that has ended'
  elif ! [ -d "$folder" ]; then
    found_fault="there is no folder $(quoted "$folder"): make it first"
  elif ! [ -w "$folder" ]; then
    found_fault="you have no permission to write into its folder $(quoted "$folder"), in which its draft is made"
  elif [ "$(df -Pk -- "$folder" 2>/dev/null | awk 'NR == 2 { print $4 }')" = 0 ]; then
    found_fault='no space is left on the disk: make room, and try again'
  fi
  found[found]=$found_fault
  [ -n "$found_fault" ]
}

# Which limit was passed, and by how much.
find_limit() {
  local text='' size number
  size=$(stat -Lc %s -- "$subject" 2>/dev/null || printf 0)
  if [ "$subject" = input ]; then
    text='a line has more than 4096 bytes'
  elif [ "$size" -gt 134217728 ] && [ "$command" = attachment-import ] && [ "$subject" = "${positions[3]}" ]; then
    text="the file has $size bytes, and at most 134217728 are read"
  elif [ "$size" -gt 134217728 ]; then
    text="the file has $size bytes, and at most 134217728 are read: take attachments out of it"
  elif number=$(kdf_number M) && [ "${number:-0}" -gt 1073741824 ]; then
    text="Argon2 asks for $((number / 1048576)) MiB of memory, and at most 1024 are taken: lower it in the program that wrote the file"
  elif number=$(kdf_number P) && [ "${number:-0}" -gt 1024 ]; then
    text="Argon2 asks for $number lanes, and at most 1024 are taken: lower it in the program that wrote the file"
  elif number=$(kdf_number R) && [ -n "$number" ] && { [ "${number:0:1}" = - ] || [ "$number" -gt 4294967296 ]; }; then
    text="AES-KDF asks for $number rounds, and at most 4294967296 are made: lower them in the program that wrote the file"
  elif [ "$(first_bytes 4)" = 50575333 ]; then
    text='the file of Password Safe asks for more than 67108864 iterations: lower them in Password Safe'
  elif [ "$subject" = "${positions[0]-}" ] && is_given kdf; then
    text=$(asked_limit)
  fi
  found[found]=$text
  [ -n "$text" ]
}

# Which cost of a key derivation that the words ask for is out of its limits.
asked_limit() {
  local rounds=${given[rounds]-10} memory=${given[memory]-65536} lanes=${given[lanes]-2}
  # A leading zero would make an octal number of them.
  rounds=$((10#$rounds)) memory=$((10#$memory)) lanes=$((10#$lanes))
  if [ "${given[kdf]}" = aes ]; then
    if [ "$rounds" -gt 4294967296 ]; then printf 'AES-KDF makes at most 4294967296 rounds: lower --rounds'; fi
  elif [ "$rounds" -lt 1 ] || [ "$rounds" -gt 4294967295 ]; then
    printf 'Argon2 makes 1 to 4294967295 passes: see --rounds'
  elif [ "$lanes" -lt 1 ] || [ "$lanes" -gt 1024 ]; then
    printf 'Argon2 has 1 to 1024 lanes: see --lanes'
  elif [ "$memory" -lt $((8 * lanes)) ] || [ "$memory" -gt 1048576 ]; then
    printf 'Argon2 takes 8 KiB for each lane at least, and 1048576 KiB at most: see --memory'
  fi
}

# How much memory the key derivation of a file takes, or the one that the words ask for.
find_memory() {
  local subject number
  if [[ ${given[kdf]-} = argon2* ]]; then
    found[found]="Argon2 of $(quoted "$target") takes $((10#${given[memory]-65536} / 1024)) MiB: close other programs, see 'ulimit -v', or lower --memory"
    return
  fi
  for subject in "${files[@]}"; do
    number=$(kdf_number M)
    if [ -n "$number" ]; then
      found[found]="Argon2 of $(quoted "$subject") takes $((number / 1048576)) MiB: close other programs, and see 'ulimit -v'"
      return
    fi
  done
  return 1
}

# What the line is that is missing on standard input.
find_line() {
  local number line how=''
  number=${refusal##*: line } number=${number%% *}
  line=${due_lines[number - 1]-}
  if [ -z "$line" ]; then return 1; fi
  if is_new "$line"; then how=' twice alike'; fi
  line=${line,}
  if [ "${#lines[@]}" -gt 0 ]; then
    found[found]="nothing was typed$how for the $line"
  else
    found[found]="line $number of standard input is to be the $line; --tty asks for it at the terminal"
  fi
}

# The name of a file without its ending.
stem_of() {
  case $1 in ?*.*) printf '%s' "${1%.*}" ;; *) printf '%s' "$1" ;; esac
}

# Whether a word is another one with two neighbours in the place of one another.
is_swapped() {
  local place
  if [ "${#1}" != "${#2}" ]; then return 1; fi
  for ((place = 0; place + 1 < ${#1}; place++)); do
    if [ "${1:0:place}${1:place+1:1}${1:place:1}${1:place+2}" = "$2" ]; then return; fi
  done
  return 1
}

# Whether the stems of two files are near: each has three characters or more, and at most two of them differ, fewer than half;
# one, or where both begin alike two. Two neighbours that are swapped count as one.
is_near_stem() {
  local one=$1 two=$2 far short=$((${#1} < ${#2} ? ${#1} : ${#2}))
  if [ "$short" -lt 3 ] || [ $((${#one} - ${#two})) -gt 2 ] || [ $((${#two} - ${#one})) -gt 2 ]; then return 1; fi
  if is_swapped "$one" "$two"; then far=1; else far=$(distance "$one" "$two"); fi
  [ "$far" -le 2 ] && [ $((far * 2)) -lt "$short" ] && { [ "$far" -le 1 ] || [ "${one:0:1}" = "${two:0:1}" ]; }
}

# A file of a near name in the same folder. Endings do not make a name near; of several that are, the nearest whole one is meant.
find_near() {
  local folder='' name=${subject##*/} other names=() near='' far least=100
  if [ "$name" != "$subject" ]; then folder=${subject%/*}/; fi
  for other in "$folder"*; do if [ -f "$other" ]; then names+=("${other##*/}"); fi; done
  if [ "${#names[@]}" -gt 200 ] || [ "${#name}" -gt 40 ]; then return 1; fi
  for other in "${names[@]}"; do
    if ! is_near_stem "$(stem_of "$name")" "$(stem_of "$other")"; then continue; fi
    far=$(distance "$name" "$other")
    if [ "$far" -lt "$least" ]; then least=$far near=$other; fi
  done
  found[near]=$(quoted "$folder$near")
  [ -n "$near" ]
}

# How many KiB Argon2 takes where the words name fewer than those of 1 MiB.
find_memory_asked() {
  if ! is_given memory; then return 1; fi
  found[found]=$((10#${given[memory]}))
  [ "${found[found]}" -lt 1024 ]
}

# Whether what a row of the table names is so.
holds() {
  case $1 in
    '') ;;
    slash) [[ ${positions[1]-} = */ ]] ;;
    no-key-file) ! is_given key-file && ! is_given key-file-from ;;
    kdb) [ "$(first_bytes 8)" = 03d9a29a65fb4bb5 ] ;;
    kdbx) [ "$(first_bytes 8)" = 03d9a29a67fb4bb5 ] ;;
    kdbx-3.1) [ "$(first_bytes 12)" = 03d9a29a67fb4bb501000300 ] ;;
    kdbx-4) [[ $(first_bytes 12) = 03d9a29a67fb4bb50?000400 ]] ;;
    psafe3) [ "$(first_bytes 4)" = 50575333 ] ;;
    markup) [[ $(first_bytes 4) = 3c* || $(first_bytes 4) = efbbbf3c ]] ;;
    not-markup) ! holds markup ;;
    header-hash) has_wrong_hash ;;
    fault) find_fault ;;
    session) [ -n "$in_session" ] ;;
    limit) find_limit ;;
    line) find_line ;;
    memory) find_memory ;;
    memory-asked) find_memory_asked ;;
    argon) [[ ${given[kdf]-} = argon2* ]] || { ! is_given kdf && [ -n "$(kdf_number M)" ]; } ;;
    near) find_near ;;
    number)
      found[found]=${positions[2]-}
      [[ ${found[found]} =~ ^[0-9]+$ ]]
      ;;
    order)
      found[found]="$command $(quoted "${positions[1]-}") $(quoted "$subject")"
      [ "$command" != merge ] && [ "$command" != import ] && [ "$subject" = "${positions[0]-}" ] && [ -f "${positions[1]-}" ]
      ;;
    *) false ;;
  esac
}

# What a refusal is about: a file that the words name, or a word of the program's.
subject_of() {
  local name
  subject=
  for name in words input memory output clip "${files[@]}" "${positions[@]}"; do
    if [[ $refusal == "keepass: $name: "* && ${#name} -gt ${#subject} ]]; then subject=$name; fi
  done
}

# Shows what can be done about a refusal, or what else was perhaps meant by a call that is carried out, in a line or several.
hint() {
  local row fields subject line
  local -A found=()
  subject_of
  if [ "$subject" = words ] && [[ $refusal == *': wrong words' ]]; then
    if [ -n "$reason" ]; then show_hint "$reason"; fi
    return
  fi
  for row in "${hint_rows[@]}"; do
    IFS=$'\x1f' read -r -d '' -a fields <<<"$row"$'\x1f'
    # shellcheck disable=SC2053
    if [ "$status" = "${fields[0]}" ] && [[ ${refusal#"keepass: $subject: "} == ${fields[1]} ]] &&
      [[ -z ${fields[2]} || " ${fields[2]} " == *" $command "* ]] && holds "${fields[3]}"; then
      for line in "${fields[@]:4}"; do if [ "$line" != $'\n' ]; then show_hint "$(filled "$line")"; fi; done
      return
    fi
  done
}

# Shows one line of a hint.
show_hint() {
  printf 'keepass: hint: %s\n' "$(shown "$1")"
}
