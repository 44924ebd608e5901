# What a person at a terminal gets beside what the program prints: questions that name what they ask for, signs of life, hints
# after refusals, and no character that could command the terminal. The script `keepass` reads this file where a standard
# stream is a terminal, and for `clip`; the program is in `program`, and this folder in `terminal`.

# ---- the terminal

# What is typed at the keyboard, which is 8, is not shown from here on, and the call cannot be suspended, which would leave
# the terminal silent. The terminal is as before when the call ends, whichever way it ends.
hide() {
  settings=$(stty -g <&8) || return
  trap unhide EXIT
  stty -echo echonl susp undef <&8
}

# What is typed is shown again.
unhide() {
  if [ -n "$settings" ]; then stty "$settings" <&8; fi
  settings=''
}

# From here on a signal ends the call with all that it started. The program runs beside the script, which therefore hears
# the signal at once.
heed_signals() {
  local signal
  for signal in HUP INT QUIT TERM; do trap "stop $signal" "$signal"; done
}

# Ends the call by a signal.
stop() {
  trap '' HUP INT QUIT TERM
  # shellcheck disable=SC2046
  kill $(jobs -p) 2>/dev/null
  exec 4>&- 6>&-
  wait
  if [ -n "$begun" ]; then erase; fi
  if [ -n "$asking" ]; then tell $'\n'; fi
  if [ -n "$copied" ]; then clear_clipboard; fi
  give_back_at_terminal 0
  unhide
  trap - EXIT HUP INT QUIT TERM
  kill -"$1" $$
  # A shell does not end by SIGQUIT, and one that reads a line at a prompt would set the terminal once more at its end.
  exec sh -c 'exit 131'
}

# The streams: 3 is what the program reads where nothing is asked, and 8 the keyboard.
open_streams() {
  exec 3<&0
  if [ -t 0 ]; then
    # Where nothing is asked nothing is read.
    exec 8<&0 3</dev/null
    hide
  fi
}

# What is typed is not shown from here on, before anything else is done.
settings='' asking='' copied='' begun='' replaced=''
heed_signals
open_streams

# ---- what is shown

# shellcheck source=/dev/null
. "$terminal/tables.bash"
. "$terminal/words.bash"
. "$terminal/hints.bash"
. "$terminal/clip.bash"
. "$terminal/replacing.bash"
. "$terminal/session.bash"

# What is read with the characters shown that could command the terminal: control characters but line feeds, and those that
# turn the direction of text. It is shown at its end, and not before.
visible() {
  LC_ALL=C sed -z "$commanding"
}

# The commands of sed that show such characters as \u{1b}.
commanding=$(
  for code in {1..9} {11..31} 127; do printf 's/\\x%02x/\\\\u{%x}/g\n' "$code" "$code"; done
  for code in {128..159}; do printf 's/\\xc2\\x%x/\\\\u{%x}/g\n' "$code" "$code"; done
  for code in 14 15 {42..46}; do printf 's/\\xe2\\x80\\x%x/\\\\u{%x}/g\n' $((code + 128)) $((code + 8192)); done
  for code in {38..41}; do printf 's/\\xe2\\x81\\x%x/\\\\u{%x}/g\n' $((code + 128)) $((code + 8256)); done
  printf 's/\\xd8\\x9c/\\\\u{61c}/g\n'
)

# A text in one line, as `visible` shows it.
shown() {
  local text
  text=$(printf '%s' "$1" | visible)
  printf '%s' "${text//$'\n'/\\u\{a\}}"
}

# Prints where a person reads it even if the streams are not there: a question, and what is not to be shown.
tell() {
  { printf '%s' "$1" >/dev/tty; } 2>/dev/null || printf '%s' "$1" >&2
}

# ---- signs of life

# Shows on one line of the terminal what the program is doing, in place of what stood there.
show_sign() {
  local width text=$1
  width=$(stty size <&2 2>/dev/null)
  width=${width#* }
  if [ "${width:-0}" -lt 8 ]; then width=80; fi
  # A character past ASCII may be two columns wide.
  if [[ $text = *[!\ -~]* ]]; then width=$((width / 2)); fi
  if [ "${#text}" -ge "$width" ]; then text=${text:0:width-3}..; fi
  if [ "$text" != "$sign" ]; then printf '\r\033[K%s' "$text" >&2; fi
  sign=$text
}

# Whether the file that is written has a draft, which is beside the file that its name leads to.
is_drafted() {
  local LC_ALL=C place name draft
  place=$(readlink -f -- "$target") || return
  name=${place##*/}
  for draft in "${place%/*}/.${name:0:100}".????????????????.keepass; do
    if [ -e "$draft" ]; then return; fi
  done
  return 1
}

# What the program is doing: how many of its databases it has opened is seen by how much it has read, and that it writes
# by its draft. One that opens none makes one.
doing() {
  local place count=0 total=0 read
  if [ "${#databases[@]}" = 0 ] || is_drafted; then
    printf 'writing %s ..' "$(shown "$target")"
    return
  fi
  read=$(awk '/^rchar/ { print $2 }' "/proc/$child/io" 2>/dev/null)
  for place in "${!databases[@]}"; do
    total=$((total + sizes[place]))
    if [ "$place" = 0 ] || [ "${read:-0}" -ge "$total" ]; then count=$((place + 1)); fi
  done
  printf 'opening %s ..' "$(shown "${databases[count - 1]}")"
  if [ "${#databases[@]}" -gt 1 ]; then printf ' (%d of %d)' "$count" "${#databases[@]}"; fi
}

# Shows signs of life, from half a second on, until it is ended.
live() {
  local sign='' pause=0.5
  trap - EXIT HUP INT QUIT TERM
  while :; do
    sleep "$pause" 2>/dev/null
    pause=0.2
    show_sign "$(doing 2>/dev/null)"
  done
}

# Takes the sign of life away, where there has been time for one.
erase() {
  if [ $((${EPOCHREALTIME/[.,]/} - begun)) -gt 400000 ]; then printf '\r\033[K' >&2; fi
  begun=''
}

# Waits for the program, and sets its status.
follow() {
  local life=''
  if [ -n "$signs" ]; then
    begun=${EPOCHREALTIME/[.,]/}
    live </dev/null >/dev/null 3<&- 4>&- 5>&- 6>&- 7<&- &
    life=$!
  fi
  wait "$child"
  status=$?
  if [ -n "$life" ]; then
    kill "$life"
    wait "$life" 2>/dev/null
    erase
  fi
}

# ---- a call

# Asks for each line that the program reads, and hands it on. No line is kept by the script. Fails where one is missing.
ask() {
  local line
  for line in "${lines[@]}"; do
    asking=1
    if is_new "$line"; then
      ask_new "$line" 4>&- &
    else
      tell "$(shown "$line") (not shown): "
      LC_ALL=C grep -a -m 1 '' <&8 >&6 2>/dev/null 4>&- &
    fi
    wait $!
    case $? in
      0) asking='' ;;
      2)
        asking=''
        return 1
        ;;
      *)
        tell $'\n'
        asking=''
        return 1
        ;;
    esac
  done
}

# Whether a line is the new password of a database, which nothing opens any more where it was typed wrong.
is_new() {
  case $command in import | db-create | db-edit) [[ $1 = 'New password of '* ]] ;; *) false ;; esac
}

# Asks for the new password of a database, and hands it on once it was typed twice alike, or is empty and said to be so. Its
# status is 2 where it was neither three times. What is typed is in a process of its own, which ends here.
ask_new() {
  local LC_ALL=C try typed='' again=''
  trap - EXIT HUP INT QUIT TERM
  for try in 1 2 3; do
    tell "$(shown "$1") (not shown): "
    read_typed typed || return 1
    if [ -n "$typed" ]; then
      tell 'Repeat: '
      read_typed again || return 1
      if [ "$typed" = "$again" ]; then break; fi
      tell $'The two passwords differ.\n'
    else
      tell 'An empty password? [y/N]: '
      read_typed again || return 1
      case $again in [Yy] | [Yy][Ee][Ss]) break ;; esac
    fi
    if [ "$try" = 3 ]; then return 2; fi
  done
  printf '%s\n' "$typed" >&6
}

# Reads a line that is typed into a variable. Fails at the end of the input.
read_typed() {
  IFS= read -r "$1" <&8 || [ -n "${!1}" ]
}

# Opens what stands between the program and the terminal: 6 takes the lines that are asked for, and the program reads them
# from the pipe `lines`; what comes to 4 is made visible, or goes to the clipboard; a refusal comes to 5, and is read from 7.
# A stream that is no terminal is the program's own. The folder of the pipes is gone before anything is asked.
open_pipes() {
  folder=$(mktemp -d) || fail 'there is no folder for a pipe; see TMPDIR'
  mkfifo "$folder/lines" "$folder/printed"
  exec 4>&1 5>&2 6<>"$folder/lines" 7</dev/null
  if [ "$command" = clip ] || [ -t 1 ]; then
    exec 4<>"$folder/printed" 9<"$folder/printed"
    exec 4>"$folder/printed"
    show_printed <&9 4>&- 6>&- 9<&- &
    filter=$!
    exec 9<&-
  fi
  if [ -t 2 ]; then exec 5>"$folder/refusal" 7<"$folder/refusal"; fi
}

# What becomes of what the program prints.
show_printed() {
  trap - EXIT HUP INT QUIT TERM
  case $command in
    clip) to_clipboard ;;
    # Line by line: a session may last.
    open) LC_ALL=C sed "$commanding" ;;
    *) visible ;;
  esac
}

# Starts the program on words.
start() {
  if [ "${#lines[@]}" -gt 0 ]; then exec 3<"$folder/lines"; fi
  rm -rf "$folder"
  "$program" "$@" <&3 >&4 2>&5 3<&- 4>&- 5>&- 6>&- 7<&- 8<&- &
  child=$!
  exec 3<&-
}

# Runs the program on words: asks for what it reads, waits for it, and shows its refusal.
run() {
  local folder='' filter=''
  open_pipes
  start "$@"
  ask
  exec 6>&-
  follow
  exec 4>&-
  if [ -n "$filter" ] && ! wait "$filter" && [ "$command" = clip ] && [ "$status" = 0 ]; then
    refusal="keepass: clip: $clipboard failed" status=70
  fi
  refusal=$refusal$(cat <&7)
  # Where the output could not be written there may be no line.
  if [ -n "$refusal" ] || [ "$status" = 10 ]; then refuse; fi
  # What was asked for may be another thing than what was meant.
  if [ "$status" = 0 ] && [ -n "$hints" ] && is_given memory; then refusal='Successfully ..' hint >&2; fi
}

# Gives a file that was replaced what the old one had, after a call with this status.
give_back_at_terminal() {
  if [ -z "$replaced" ]; then return; fi
  give_back "$1"
  printf '%s' "$lost" | visible >&2
}

# Shows a refusal, and what can be done about it.
refuse() {
  if [ -z "$refusal" ]; then
    :
  elif [ -t 2 ]; then
    printf '%s\n' "$refusal" | visible >&2
  else
    printf '%s\n' "$refusal" >&2
  fi
  if [ -n "$hints" ]; then hint >&2; fi
}

# Ends the call with a refusal, for which nothing has to be asked.
refuse_at_once() {
  refusal=$1 status=$2
  unhide
  refuse
  exit "$status"
}

# Refuses in the program's words, and in its order, what names a file that is not there, or is to be made and is there.
test_files() {
  local place file
  if [ "$command" = attachment-export ]; then test_new; fi
  for place in "${!files[@]}"; do
    if [ "$place" = "${#databases[@]}" ]; then test_new; fi
    file=${files[place]}
    if ! [ -e "$file" ]; then
      refuse_at_once "keepass: $file: no such file" 7
    elif ! [ -f "$file" ] || ! [ -r "$file" ]; then
      refuse_at_once "keepass: $file: file fault" 7
    fi
  done
  test_new
}

# Refuses a new file under the name of one that is there.
test_new() {
  case $command in attachment-export | import | db-create) if [ -f "$target" ]; then refuse_at_once "keepass: $target: file exists" 2; fi ;; esac
}

# Reads the words, and takes out what belongs to the script: `--tty`, and the `-` of an export to the terminal. Sets
# `words` to those of the program.
take_words() {
  local word place ended=''
  words=()
  for word; do
    if [ "$word" = -- ]; then ended=1; fi
    if [ -z "$ended$tty" ] && [ "$word" = --tty ] && { : </dev/tty; } 2>/dev/null; then
      tty=1
    else
      words+=("$word")
    fi
  done
  read_words "${words[@]}"
  if [ "$command" = export ] && [ "${#positions[@]}" = 2 ] && [ "${positions[1]}" = - ]; then
    for word in "${!words[@]}"; do if [ "${words[word]}" = - ]; then place=$word; fi; done
    unset "words[$place]"
    words=("${words[@]}")
    read_words "${words[@]}"
    is_shown=1
  fi
  ask_why "${words[@]}"
}

# ---- help

# The commands with a few words on each, as `keepass -h` shows them.
overview() {
  local name
  printf 'keepass COMMAND [OPTION..] DATABASE ..\n\n'
  printf '    keepass ls -R family.kdbx    lists all groups and entries\n\n'
  for name in $command_order; do printf '%-17s  %s\n' "$name" "${command_briefs[$name]}"; done
  printf '\nkeepass COMMAND --help describes one command, keepass --help all of them, and\n'
  printf 'man keepass has more, with examples.\n'
}

# What the script does beside the program, as `keepass --help` shows it at a terminal.
script_help() {
  printf '%s' "$clip_help"
  printf '\nAt a terminal:\n%s' "$terminal_help"
}

# Prints what a person asks for who wants help, and ends the call.
help() {
  local word
  if [ $# = 0 ] && [ -t 1 ]; then
    unhide
    overview
    exit 1
  fi
  case "$*" in
    -h | help)
      unhide
      overview
      exit 0
      ;;
    --help)
      unhide
      "$program" --help && script_help
      exit
      ;;
  esac
  if [ $# = 2 ] && [[ $1 = help || $1 = -h || $1 = --help ]]; then set -- "$2" -h; fi
  if [ -z "${command_briefs[${1:-none}]-}" ]; then return; fi
  for word in "${@:2}"; do
    case $word in
      --) return ;;
      -h | --help)
        unhide
        if [ "$1" = clip ]; then printf '%s' "$clip_help"; else help_of "$1"; fi
        exit
        ;;
    esac
  done
}

# ---- the whole call

# A call where a standard stream is a terminal.
at_terminal() {
  local signs='' hints='' is_shown='' tty='' refusal='' status=0 child=''
  local command reason positions=() repeated=() words=() files=() databases=() sizes=() target='' lines=() due_lines=()
  take_words "$@"
  if ! is_given quiet && [ -t 2 ]; then
    if [ "${KEEPASS_HINTS-1}" != 0 ]; then hints=1; fi
    if [ "${TERM-dumb}" != dumb ]; then signs=1; fi
  fi
  help "$@"
  if [ -n "$tty" ]; then
    unhide
    exec 8</dev/tty
    hide
  fi
  if [ -z "$reason" ]; then
    if [ "$command" = clip ] && ! find_clipboard; then
      refuse_at_once 'keepass: clip: it needs wl-copy, xclip, xsel or pbcopy, and finds none of them for this session' 70
    fi
    files_of
    lines_of
    due_lines=("${lines[@]}")
    if [ "$command" = export ] && [ -t 1 ] && [ -z "$is_shown" ]; then
      refuse_at_once 'keepass: output: every password would stand on the screen' 1
    fi
    if [ "$command" = db-edit ] && [ "${given[set-key-file]-}" -ef "$target" ]; then
      refuse_at_once "keepass: $target: a database cannot be its own key file" 1
    fi
    if [ -z "$tty" ] && ! [ -t 0 ]; then lines=(); fi
    if [ "${#lines[@]}" -gt 0 ]; then test_files; fi
  fi
  if [ "${#lines[@]}" = 0 ] && ! is_typed_session; then unhide; fi
  if [ -n "$more" ] && [ -z "$reason" ]; then remember "$target"; fi
  if [ "$command" = clip ] && [ -z "$reason" ]; then
    clip
  elif [ "$command" = open ] && [ -z "$reason" ]; then
    session "${words[@]}"
  else
    run "${words[@]}"
  fi
  give_back_at_terminal "$(status_of_writing "${words[0]-}" "$status")"
  exit "$status"
}
