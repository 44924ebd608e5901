# Reads the words of a call as the program does: what they ask for, or why they are no command. terminal/tables.bash has
# the commands and their options, in the words of docs/commands.toml.

# How many letters must be changed, added or left out to make one word of another.
distance() {
  local one=$1 other=$2 row=() above left i j cost
  for ((j = 0; j <= ${#other}; j++)); do row[j]=$j; done
  for ((i = 1; i <= ${#one}; i++)); do
    above=${row[0]} row[0]=$i
    for ((j = 1; j <= ${#other}; j++)); do
      left=$above above=${row[j]} cost=1
      if [ "${one:i-1:1}" = "${other:j-1:1}" ]; then cost=0; fi
      row[j]=$((left + cost < above + 1 ? left + cost : above + 1))
      if [ $((row[j - 1] + 1)) -lt "${row[j]}" ]; then row[j]=$((row[j - 1] + 1)); fi
    done
  done
  printf '%d' "${row[-1]}"
}

# The nearest of some words to the first, where one is near: one letter off, two where both begin alike, or begun so.
nearest() {
  local word=$1 other best='' far least=3 one two
  shift
  for other; do
    if [ $((${#word} - ${#other})) -gt 2 ] || [ "${#word}" -gt 40 ]; then continue; fi
    if [ "${#word}" -gt 2 ] && [ "${other:0:${#word}}" = "$word" ]; then
      far=1
    elif [ $((${#other} - ${#word})) -gt 2 ]; then
      continue
    else
      far=$(distance "$word" "$other")
      # Options come with their hyphens.
      one=${word#--} two=${other#--}
      if [ "$far" -gt 1 ] && [ "${one:0:1}" != "${two:0:1}" ]; then continue; fi
    fi
    if [ "$far" -lt "$least" ] && [ $((far * 2)) -le "${#other}" ]; then least=$far best=$other; fi
  done
  printf '%s' "$best"
}

# The same as a question.
suggestion() {
  local near
  near=$(nearest "$@")
  if [ -n "$near" ]; then printf "; did you mean '%s'?" "$near"; fi
}

# Keeps the first reason why the words are no command.
because() {
  if [ -z "$reason" ]; then reason=$1; fi
}

# Sets `row` to the row of an option of the command, NAME:LETTER:VALUE:MANY, by its long name or, with one hyphen, its
# letter, and `value` to what its value is called, if it has one.
option_row() {
  local name letter
  for row in ${option_rows[$command]}; do
    IFS=: read -r name letter value _ <<<"$row"
    if [ "--$name" = "$1" ] || { [ -n "$letter" ] && [ "-$letter" = "$1" ]; }; then return; fi
  done
  row='' value=''
  return 1
}

# What is said of an option that the command does not take: `keepassxc-cli` may have it, another is near, or its page has all.
no_option() {
  local row names=() near='' foreign=${foreign_options[$command $1]-${foreign_options[$1]-}}
  if [ -n "$foreign" ]; then
    because "$command takes no option '$1': $foreign"
    return
  fi
  for row in ${option_rows[$command]}; do names+=("--${row%%:*}"); done
  case $1 in --*) near=$(suggestion "$1" "${names[@]}") ;; esac
  because "$command takes no option '$1'${near:-; keepass $command --help lists its options}"
}

# Keeps the option of `row` with its value, which is empty for a flag: once, unless it may be repeated. `repeated` has each
# of those that may, as NAME=VALUE.
give() {
  if [ "${row##*:}" = many ]; then
    repeated+=("${row%%:*}=$1")
  elif [ -n "${given[${row%%:*}]+set}" ]; then
    because "'--${row%%:*}' is given twice"
  fi
  given[${row%%:*}]=$1
}

# Reads an option of a long name.
read_long() {
  local word=$1 name=${1%%=*} row value
  if ! option_row "$name"; then
    no_option "$name"
  elif [ -z "$value" ] && [ "$name" != "$word" ]; then
    because "'$name' takes no value"
  elif [ -z "$value" ]; then
    give ''
  elif [ "$name" = "$word" ]; then
    due=$row due_word=$name
  else
    give "${word#*=}"
  fi
}

# Reads an option of one hyphen: a letter with its value after it or in the next word, or joined letters of flags.
read_short() {
  local letters=${1:1} letter row value
  if option_row "-${letters:0:1}" && [ -n "$value" ]; then
    letter=${letters:0:1} letters=${letters:1}
    if [ -z "$letters" ]; then
      due=$row due_word=-$letter
    else
      give "${letters#=}"
    fi
    return
  fi
  letter=''
  while [ -n "$letters" ]; do
    if [ -n "$letter" ] && [ "${letters:0:1}" = = ]; then because "'-$letter' takes no value"; fi
    letter=${letters:0:1} letters=${letters:1}
    if ! option_row "-$letter"; then
      no_option "-$letter"
    else
      if [ -n "$value" ]; then because "'-$letter' needs its own hyphen: -$letter $value"; fi
      give ''
    fi
  done
}

# Compares the positions with those that the command has.
read_positions() {
  local wanted least=0 most=0 place
  read -r -a wanted <<<"${command_positions[$command]}"
  for place in "${wanted[@]}"; do
    case $place in
      '['*) most=$((most + 1)) ;;
      *...) least=$((least + 1)) most=$((most + 16)) ;;
      *) least=$((least + 1)) most=$((most + 1)) ;;
    esac
  done
  if [ "${#positions[@]}" -lt "$least" ]; then
    because "$command needs ${command_positions[$command]}"
  elif [ "${#positions[@]}" -gt "$most" ] && [ "$command" = merge ]; then
    because 'a merge has at most 16 sources: merge the others in a second call'
  elif [ "${#positions[@]}" -gt "$most" ]; then
    because "one word too many: '${positions[most]}'; $command takes ${command_positions[$command]:-only options}"
  fi
}

# Whether words are UTF-8.
is_utf8() {
  local LC_ALL=C
  if [[ "$*" != *[$'\x80'-$'\xff']* ]]; then return; fi
  printf '%s\n' "$@" | iconv -f UTF-8 -t UTF-8 >/dev/null 2>&1
}

# Whether an option was given.
is_given() { [ -n "${given[$1]+set}" ]; }

# Looks at what is said of a generated password: with `generate` and `--generate` a length and the characters that are left,
# and otherwise that nothing is said.
read_profile() {
  local word number=${given[length]-32} characters='' left='' place
  if [ "$command" != generate ] && ! is_given generate; then
    for word in length exclude lower upper numeric special; do
      if is_given "$word"; then because "'--$word' needs '--generate'"; fi
    done
    return
  fi
  if is_given password-prompt; then because "'--generate' does not go with '--password-prompt'"; fi
  if [[ ! $number =~ ^[0-9]{1,4}$ ]] || [ "$((10#$number))" -lt 1 ] || [ "$((10#$number))" -gt 4096 ]; then
    because "unknown length '$number': 1 to 4096"
  fi
  if is_given lower; then characters+=abcdefghijklmnopqrstuvwxyz; fi
  if is_given upper; then characters+=ABCDEFGHIJKLMNOPQRSTUVWXYZ; fi
  if is_given numeric; then characters+=0123456789; fi
  if is_given special; then characters+='!"#$%&'\''()*+,-./:;<=>?@[\]^_`{|}~'; fi
  if [ -z "$characters" ]; then characters=abcdefghijklmnopqrstuvwxyzABCDEFGHIJKLMNOPQRSTUVWXYZ0123456789; fi
  for ((place = 0; place < ${#characters}; place++)); do
    if [[ ${given[exclude]-} != *"${characters:place:1}"* ]]; then left=1; fi
  done
  if [ -z "$left" ]; then because 'no characters are left: --exclude has all of them'; fi
}

# Looks at how many entries a test has.
read_count() {
  local number=${positions[0]-}
  if [[ ! $number =~ ^[0-9]{1,6}$ ]] || [ "$((10#$number))" -lt 1 ] || [ "$((10#$number))" -gt 50000 ]; then
    because "unknown number of entries '$number': 1 to 50000"
  fi
}

# What a cost of a key derivation counts.
cost_unit() {
  case $1 in
    memory) printf 'KiB, as 65536 for 64 MiB' ;;
    rounds) printf 'rounds of AES or passes of Argon2' ;;
    lanes) printf 'lanes' ;;
  esac
}

# Looks at a key derivation and its costs: those of Argon2 need one of its kinds, and each is one to ten digits.
read_kdf() {
  local word
  for word in rounds memory lanes; do
    if is_given "$word" && ! is_given kdf; then because "'--$word' needs '--kdf'"; fi
  done
  if ! is_given kdf; then return; fi
  case ${given[kdf]} in
    aes)
      for word in memory lanes; do
        if is_given "$word"; then because "'--$word' needs '--kdf argon2d' or '--kdf argon2id'"; fi
      done
      ;;
    argon2d | argon2id) ;;
    *) because "unknown key derivation '${given[kdf]}': aes or argon2d or argon2id" ;;
  esac
  for word in rounds memory lanes; do
    if is_given "$word" && [[ ! ${given[$word]} =~ ^[0-9]{1,10}$ ]]; then
      because "'--$word' needs a number of $(cost_unit "$word"), in one to ten digits: '${given[$word]}'"
    fi
  done
}

# Looks at what is said of a file's settings: cipher, key derivation and version.
read_settings() {
  if is_given cipher; then
    case ${given[cipher]} in
      aes | twofish | chacha20) ;;
      *) because "unknown cipher '${given[cipher]}': aes or twofish or chacha20" ;;
    esac
  fi
  read_kdf
  if is_given version; then
    case ${given[version]} in
      3.1 | 4.0 | 4.1) ;;
      *) because "unknown version '${given[version]}': 3.1 or 4.0 or 4.1" ;;
    esac
  fi
}

# Looks at the key of a new file, and whether one without a key has settings.
read_new_key() {
  local word
  if is_given plain && is_given set-password; then because "'--set-password' does not go with '--plain': an XML export has no key"; fi
  if is_given plain && is_given set-key-file; then because "'--set-key-file' does not go with '--plain': an XML export has no key"; fi
  if ! is_given plain && ! is_given set-password && ! is_given set-key-file; then
    because "$command needs a key for the new database: -p, --set-key-file FILE, or --plain for none"
  fi
  for word in cipher kdf; do
    if is_given plain && is_given "$word"; then because "'--$word' does not go with '--plain'"; fi
  done
}

# Looks at the parts of a key that is changed, and whether anything is.
read_change() {
  local word given_words="${!given[*]}"
  for word in password key-file; do
    if is_given "set-$word" && is_given "unset-$word"; then because "'--set-$word' does not go with '--unset-$word'"; fi
  done
  if ! is_given set-password && ! is_given set-key-file && { is_given no-password || is_given unset-password; } &&
    { ! is_given key-file || is_given unset-key-file; }; then
    because 'no key is left: a database needs a password or a key file'
  fi
  read_settings
  case " $given_words " in
    *' set-password '* | *' unset-password '* | *' set-key-file '* | *' unset-key-file '* | *' cipher '* | *' kdf '* | *' version '*) ;;
    *' key-file '*) because 'nothing to change: --set-key-file sets a key file, -k only opens with one' ;;
    *) because 'nothing to change: give another key, --cipher, --kdf or --version' ;;
  esac
}

# Looks at the number of a version, if the option is given that has it: one to six digits.
read_version() {
  if is_given "$1" && [[ ! ${given[$1]} =~ ^[0-9]{1,6}$ ]]; then
    because "'--$1' needs the number of a version, in one to six digits: '${given[$1]}'"
  fi
}

# White space of Unicode, which a tag has at neither end.
white_space=($'\t' $'\n' $'\v' $'\f' $'\r' ' ' $'\xc2\x85' $'\xc2\xa0' $'\xe1\x9a\x80'
  $'\xe2\x80\x80' $'\xe2\x80\x81' $'\xe2\x80\x82' $'\xe2\x80\x83' $'\xe2\x80\x84' $'\xe2\x80\x85' $'\xe2\x80\x86' $'\xe2\x80\x87'
  $'\xe2\x80\x88' $'\xe2\x80\x89' $'\xe2\x80\x8a' $'\xe2\x80\xa8' $'\xe2\x80\xa9' $'\xe2\x80\xaf' $'\xe2\x81\x9f' $'\xe3\x80\x80')

# Whether a text is one tag.
is_tag() {
  local LC_ALL=C space
  case $1 in '' | *[\;,]*) return 1 ;; esac
  for space in "${white_space[@]}"; do
    case $1 in "$space"* | *"$space") return 1 ;; esac
  done
}

# Whether a text is a time as 2027-01-31T00:00:00Z, in the years 1 to 9999.
is_time() {
  local LC_ALL=C year month day days
  [[ $1 =~ ^([0-9]{4})-([0-9]{2})-([0-9]{2})T([0-9]{2}):([0-9]{2}):([0-9]{2})Z$ ]] || return
  year=$((10#${BASH_REMATCH[1]})) month=$((10#${BASH_REMATCH[2]})) day=$((10#${BASH_REMATCH[3]}))
  case $month in
    1 | 3 | 5 | 7 | 8 | 10 | 12) days=31 ;;
    4 | 6 | 9 | 11) days=30 ;;
    2) days=$((year % 4 == 0 && (year % 100 != 0 || year % 400 == 0) ? 29 : 28)) ;;
    *) return 1 ;;
  esac
  [ "$year" -ge 1 ] && [ "$day" -ge 1 ] && [ "$day" -le "$days" ] &&
    [ "$((10#${BASH_REMATCH[4]}))" -lt 24 ] && [ "$((10#${BASH_REMATCH[5]}))" -lt 60 ] && [ "$((10#${BASH_REMATCH[6]}))" -lt 60 ]
}

# Looks at what is said of fields, of tags, and of when an entry expires.
read_further() {
  local pair option
  for pair in "${repeated[@]}"; do
    option=--${pair%%=*} pair=${pair#*=}
    case $option:$pair in
      --set: | --unset:) because "'$option' needs the name of a field" ;;
      --set:Title | --unset:Title) because "'$option' does not take 'Title': -t gives another title" ;;
      --set:UserName | --unset:UserName) because "'$option' does not take 'UserName': -u gives another one" ;;
      --set:Password | --unset:Password) because "'$option' does not take 'Password': -p gives another one" ;;
      --set:URL | --unset:URL) because "'$option' does not take 'URL': --url gives another one" ;;
      --set:Notes | --unset:Notes) because "'$option' does not take 'Notes': --notes gives others" ;;
      --tag:* | --untag:*) if ! is_tag "$pair"; then because "'$option' needs one tag, without ; and , and white space around it: '$pair'"; fi ;;
    esac
  done
  if is_given protect && ! is_given set; then because "'--protect' needs '--set NAME'"; fi
  if is_given expires && [ "${given[expires]}" != never ] && ! is_time "${given[expires]}"; then
    because "'--expires' needs a time as 2027-01-31T00:00:00Z, or never: '${given[expires]}'"
  fi
}

# Looks at an edit: it restores a version and changes nothing else, or it changes something.
read_edit() {
  local word
  local changes=(title username url notes password-prompt generate otp set protect unset tag untag expires)
  if is_given restore; then
    for word in "${changes[@]}" length exclude lower upper numeric special; do
      if is_given "$word"; then because "'--restore' does not go with '--$word'"; fi
    done
    read_version restore
    return
  fi
  read_profile
  read_further
  for word in "${changes[@]}"; do
    if is_given "$word"; then return; fi
  done
  because 'nothing to change: give -t, -u, --url, --notes, -p, -g, --otp, --set, --unset, --tag, --untag or --expires'
}

# Looks at an attachment: what is taken out goes to a file or to standard output, and what is put in has a name.
read_attachment() {
  case $command in
    attachment-export)
      if is_given stdout && [ "${#positions[@]}" -gt 3 ]; then
        because "'--stdout' does not go with FILE: '${positions[3]}'"
      elif ! is_given stdout && [ "${#positions[@]}" -lt 4 ]; then
        because 'attachment-export needs FILE or --stdout'
      fi
      ;;
    attachment-import) if [ -z "${positions[2]-}" ]; then because 'attachment-import needs the name of an attachment'; fi ;;
  esac
}

# Looks for options that do not go together, formats that are unknown, and an edit of nothing.
read_options() {
  local word
  if [ "$command" = import ] || [ "$command" = db-create ]; then read_new_key; fi
  for word in no-password key-file no-password-from key-file-from same-credentials; do
    if is_given plain && is_given "$word"; then because "'--$word' does not go with '--plain': an XML export has no key"; fi
  done
  for word in no-password-from key-file-from; do
    if is_given same-credentials && is_given "$word"; then because "'--$word' does not go with '--same-credentials'"; fi
  done
  if is_given no-password && ! is_given key-file; then because "'--no-password' needs a key file: -k FILE"; fi
  if is_given no-password-from && ! is_given key-file-from; then because "'--no-password-from' needs '--key-file-from FILE'"; fi
  if is_given format && [[ " ${command_formats[$command]} " != *" ${given[format]} "* ]]; then
    because "unknown format '${given[format]}': ${command_formats[$command]// / or }"
  fi
  for word in all show-attachments; do
    if is_given totp && is_given "$word"; then because "'--totp' does not go with '--$word'"; fi
  done
  read_version at
  case $command in
    db-create) read_settings ;;
    db-edit) read_change ;;
  esac
  read_attachment
  if [ "$command" = edit ]; then read_edit; else read_profile; fi
  if [ "$command" = selftest ]; then read_count; fi
}

# Reads the words of a call into `command`, `given` (the options with their values), `repeated` and `positions`, and sets
# `reason` to why they are no command, by the first cause from the left, or to nothing where they are one.
read_words() {
  local word due='' due_word='' ended=''
  command=${1-} reason='' positions=() repeated=()
  declare -gA given=()
  if [ $# = 0 ]; then
    because 'no command; keepass --help lists them'
    return
  fi
  if ! is_utf8 "$@"; then because 'a word is not UTF-8'; fi
  if [ -z "$command" ] || [ -z "${command_briefs[$command]-}" ]; then
    if [ -n "$command" ] && [ -n "${foreign_commands[$command]-}" ]; then
      because "unknown command '$command': ${foreign_commands[$command]}"
    elif [[ $command = -v || $command = -V || $command = -version ]]; then
      because "a command comes first, before '$command'; keepass --version prints the version"
    elif [[ $command = -* ]]; then
      because "a command comes first, before '$command'; keepass --help lists them"
    elif [ -f "$command" ]; then
      because "a command comes first, before '$command', as ls or show; keepass --help lists them"
    else
      because "unknown command '$command'$(suggestion "$command" "${!command_positions[@]}"); keepass --help lists them"
    fi
    command=''
    for word; do if [[ $word = -q || $word = --quiet ]]; then given[quiet]=''; fi; done
    return
  fi
  shift
  for word; do
    if [ -n "$due" ] && [[ $word = -?* ]]; then
      because "'$due_word' needs a value; one that begins with - is joined to it: $due_word=VALUE"
      due=''
    fi
    if [ -n "$due" ]; then
      row=$due give "$word"
      due=''
    elif [ -n "$ended" ] || [[ $word != -?* ]]; then
      positions+=("$word")
    else
      case $word in
        --) ended=1 ;;
        --*) read_long "$word" ;;
        *) read_short "$word" ;;
      esac
    fi
  done
  if [ -n "$due" ]; then because "'$due_word' needs a value"; fi
  read_positions
  read_options
  if [ "$command" = clip ]; then read_seconds; fi
}

# Sets `reason` to why the words of the program are no command, as the program says it; where they are one, to nothing. Of a
# command or an option of another program it says what stands for it here. Words that ask for a page keep their reason, since
# nothing is asked for them.
ask_why() {
  local line word foreign
  if [ "$command" = clip ] || ! line=$("$program" --why "$@" 3<&- 8<&- </dev/null 2>/dev/null); then return; fi
  if [ -n "$line$command" ]; then reason=$line; fi
  case $line in
    "unknown command '"?*)
      if [ -n "${1-}" ] && [ -n "${foreign_commands[$1]-}" ]; then
        reason="unknown command '$1': ${foreign_commands[$1]}"
      elif [ -f "$1" ]; then
        reason="a command comes first, before '$1', as ls or show; keepass --help lists them"
      fi
      ;;
    "$command takes no option '"*)
      word=${line#*\'}
      word=${word%%\'*}
      foreign=${foreign_options[$command $word]-${foreign_options[$word]-}}
      if [ -n "$foreign" ]; then reason="$command takes no option '$word': $foreign"; fi
      ;;
  esac
}

# How many bytes a file has.
size_of() {
  stat -Lc %s -- "$1" 2>/dev/null || printf 0
}

# A database among the files that the program opens, after the key file that opens it.
add_database() {
  local size
  size=$(size_of "$1")
  if [ -n "${2-}" ]; then
    files+=("$2")
    size=$((size + $(size_of "$2")))
  fi
  files+=("$1")
  databases+=("$1")
  sizes+=("$size")
}

# The files that must be there for the words, in the order in which the program opens them, the databases among them, how
# much is read for each, and the file that is written.
files_of() {
  local source key=${given[key-file]-}
  files=() databases=() sizes=() target=''
  case $command in generate | selftest) return ;; esac
  target=${positions[0]-}
  if [ "$command" = import ]; then
    target=${positions[1]}
    add_database "${positions[0]}"
    if is_given set-key-file; then files+=("${given[set-key-file]}"); fi
    return
  fi
  if [ "$command" = attachment-export ]; then target=${positions[3]-}; fi
  if [ "$command" != db-create ]; then add_database "${positions[0]}" "$key"; fi
  if is_given set-key-file; then files+=("${given[set-key-file]}"); fi
  if [ "$command" = attachment-import ]; then files+=("${positions[3]}"); fi
  if [ "$command" != merge ]; then return; fi
  if ! is_given same-credentials; then key=${given[key-file-from]-}; fi
  for source in "${positions[@]:1}"; do add_database "$source" "$key"; done
}

# What each line of the input that the words ask for is, in order: the passwords of databases, then that of an entry or of
# a new database, a one-time code, and the values of fields.
lines_of() {
  local source pair
  lines=()
  case $command in generate | selftest) return ;; esac
  if [ "$command" = import ]; then
    if [ "${given[format]-xml}" = psafe3 ]; then lines+=("Password of ${positions[0]}"); fi
    if is_given set-password; then lines+=("New password of ${positions[1]}"); fi
    return
  fi
  if [ "$command" != db-create ] && ! is_given plain && ! is_given no-password; then lines+=("Password of ${positions[0]}"); fi
  if is_given set-password; then lines+=("New password of ${positions[0]}"); fi
  if [ "$command" = merge ] && ! is_given plain && ! is_given same-credentials && ! is_given no-password-from; then
    for source in "${positions[@]:1}"; do lines+=("Password of $source"); done
  fi
  if is_given password-prompt; then lines+=("New password of the entry"); fi
  if is_given otp; then lines+=("One-time code of the entry, otpauth://.."); fi
  for pair in "${repeated[@]}"; do
    case $pair in set=*) lines+=("Value of the field ${pair#*=}") ;; esac
  done
}
