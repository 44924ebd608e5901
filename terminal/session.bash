# `keepass open` at a terminal: a prompt for each line of a session, and what the line prints before the next one.
#
# The program does not say when a line is done. So the script sends two lines after it, which are refused in two known texts whatever
# the database holds. A line is refused in one text at most. Be that one of the two or not, the first place where the two stand one
# after the other is the answer to the lines that the script sent, and what the line itself printed came before it. This asks nothing
# of the system, as a look at what the program waits for would. What the program prints on standard output is kept by a filter. The
# script tells the filter that it is all there by a line that no document has, since it was drawn for this session, and is answered when
# it is on the screen.

# The commands that a line may be, and those of them that write.
line_commands='ls show search add edit mv rm mkdir rmdir db-info'
writing_commands='add edit mv rm mkdir rmdir'
# Two lines that are refused, and their refusals.
probes=$'"\nsearch ""\n'
probed=$'keepass: words: wrong words\nkeepass: words: empty term at 0\n'
# Set while lines are typed.
in_session=''

# Whether a word is one of a list.
is_among() { [[ " $2 " = *" $1 "* ]]; }

# Whether the lines of a session are typed.
is_typed_session() {
  [ "$command" = open ] && [ -z "$reason" ] && { [ -n "$tty" ] || [ -t 0 ]; }
}

# ---- the streams of a session

# Keeps what the program prints until the script says by a line, which begins with `mark`, that it is all there. Then it is shown, or
# given to the script, and the script is told by `mark` that it was.
show_by_lines() {
  trap - EXIT HUP INT QUIT TERM
  LC_ALL=C sed -n '
    /'"$mark"' given$/ { s/.\{'$((${#mark} + 6))'\}$//; /^$/!H; s/.*//; x; s/^\n//; w /dev/stderr
      s/.*/'"$mark"'/; w /dev/stderr
      s/.*//; h; d; }
    /'"$mark"' shown$/ { s/.\{'$((${#mark} + 6))'\}$//; /^$/!H; s/.*//; x; /^$/! { s/^\n//
      '"$commanding"'
      p; }
      s/.*/'"$mark"'/; w /dev/stderr
      s/.*//; h; d; }
    H'
}

# Opens what stands between the program and the terminal, as for other calls, but that a refusal comes to 7 when it is written, and that
# the filter answers at `told`. The program reads what is sent to 6.
open_session_streams() {
  mark=$(od -An -v -tx1 -N16 /dev/urandom | tr -d ' \n')
  folder=$(mktemp -d) || fail 'there is no folder for a pipe; see TMPDIR'
  mkfifo "$folder/lines" "$folder/printed" "$folder/told" "$folder/refused"
  exec 4>&1 5<>"$folder/refused" 6<>"$folder/lines" 7<"$folder/refused" {told}<>"$folder/told"
  exec 3<"$folder/lines" 5>"$folder/refused"
  if [ -t 1 ]; then
    exec 4<>"$folder/printed" 9<"$folder/printed"
    exec 4>"$folder/printed"
    show_by_lines <&9 2>&"$told" 3<&- 4>&- 5>&- 6>&- 7<&- 8<&- 9<&- {told}>&- &
    filter=$!
    exec 9<&-
  fi
  rm -rf "$folder"
  if ! { exec {screen}>/dev/tty; } 2>/dev/null; then exec {screen}>&2; fi
}

# Starts the program on words.
start_session() {
  "$program" "$@" <&3 >&4 2>&5 3<&- 4>&- 5>&- 6>&- 7<&- 8<&- {told}>&- {screen}>&- &
  child=$!
  exec 3<&- 5>&-
}

# Ends what the program reads.
close_input() {
  exec 6>&-
  closed=1
}

# Waits until all that was sent is done, or the program has ended, and sets `refusal`. With a word it shows signs of life meanwhile. At
# the end of the program it sets `ended` and the status.
settle() {
  local part='' sign='' pause=0.5 code
  refusal=''
  if [ -z "$closed" ]; then printf '%s' "$probes" >&6; fi
  probe_count=$((probe_count + 2))
  if [ -n "$signs" ] && [ -n "${1-}" ]; then begun=${EPOCHREALTIME/[.,]/}; fi
  while [ -z "$ended" ] && [[ $refusal != *"$probed" ]]; do
    IFS= read -r -t "$pause" part <&7
    code=$?
    refusal+=$part
    if [ "$code" = 0 ]; then
      refusal+=$'\n'
    elif [ "$code" -le 128 ]; then
      wait "$child"
      status=$?
      ended=1
    elif [ -n "$begun" ]; then
      pause=0.2
      show_sign "$(doing 2>/dev/null)"
    fi
  done
  if [ -n "$begun" ]; then erase; fi
  refusal=${refusal%"$probed"}
  refusal=${refusal%$'\n'}
}

# Has the filter show what the program printed, or give it to the script, line by line in `given_lines`.
flush() {
  local line=''
  given_lines=()
  if [ -z "$filter" ]; then return; fi
  printf '%s %s\n' "$mark" "$1" >&4
  while IFS= read -r line <&"$told" && [ "$line" != "$mark" ]; do given_lines+=("$line"); done
}

# Sends a line to the program.
send() {
  printf '%s\n' "$1" >&6
  sent=$((sent + 1))
}

# ---- the words of a line

# Cuts a line into `parts` as the program does, of which the last begins after `before_part`, where no space follows it. Fails where a
# quotation mark has no end.
cut_line() {
  local LC_ALL=C rest=$1 part='' quoted='' is_part='' one
  parts=() before_part=$1
  while [ -n "$rest" ]; do
    if [ -z "$is_part" ]; then before_part=${1:0:${#1}-${#rest}}; fi
    one=${rest%%[\" ]*}
    part+=$one rest=${rest:${#one}}
    if [ -n "$one" ]; then is_part=1; fi
    one=${rest:0:1} rest=${rest:1}
    if [ "$one" = '"' ]; then
      is_part=1
      if [ -n "$quoted" ]; then quoted=''; else quoted=1; fi
    elif [ -n "$quoted" ]; then
      part+=$one
    elif [ -n "$one" ]; then
      if [ -n "$is_part" ]; then parts+=("$part"); fi
      part='' is_part='' before_part=$1
    fi
  done
  if [ -n "$is_part" ]; then parts+=("$part"); fi
  [ -z "$quoted" ]
}

# Reads the words of a line as those of the call that it stands for, and sets `reason` to why they are no command of a session.
read_line_words() {
  local name=$1 word
  if is_among "$name" 'quit exit'; then
    because "'$name' stands alone on its line"
    return
  elif ! is_among "$name" "$line_commands"; then
    because "a session has no command '$name'$(suggestion "$name" $line_commands quit help); help lists them"
    return
  fi
  read_words "$name" "${@:2}"
  for word in key-file no-password plain; do
    if is_given "$word"; then
      reason="a line takes no option '--$word': the session has opened its database"
      return
    fi
  done
  read_words "$name" "${opened_by[@]}" "./$name" "${@:2}"
  ask_why "$name" "${opened_by[@]}" "./$name" "${@:2}"
  reason=${reason// DATABASE/}
  reason=${reason//keepass /}
  positions=("$database" "${positions[@]:1}")
}

# Sets `opened_by` to the options with which the session opened its database.
keep_opening() {
  opened_by=()
  if is_given plain; then opened_by+=(--plain); fi
  if is_given no-password; then opened_by+=(--no-password); fi
  if is_given key-file; then opened_by+=("--key-file=${given[key-file]}"); fi
}

# Prints the help that a line asks for, if it asks for one.
line_help() {
  local name
  case ${parts[0]} in
    help | '?' | -h | --help)
      if [ "${#parts[@]}" = 2 ] && is_among "${parts[1]}" "$line_commands"; then
        help_of "${parts[1]}"
        return
      fi
      for name in $line_commands; do printf '%-8s  %s\n' "$name" "${command_briefs[$name]}"; done
      printf 'quit      end the session, as Ctrl-D does\n\n'
      printf "A line is a command without DATABASE; a name with spaces stands in \"\". 'help COMMAND' describes one.\n"
      return
      ;;
  esac
  if is_among "${parts[0]}" "$line_commands" && [ "${#parts[@]}" = 2 ] && [[ ${parts[1]} = -h || ${parts[1]} = --help ]]; then
    help_of "${parts[0]}"
    return
  fi
  return 1
}

# ---- completion

# The keys of the prompt, and no line of another session.
set_keys() {
  unset HISTFILE
  history -c
  { bind 'set enable-bracketed-paste off' && bind -x '"\t": complete_line'; } 2>/dev/null
}

# Sets `known_paths` to the paths of the database, as the last line that wrote it left it.
learn_paths() {
  if [ "${#known_paths[@]}" != 0 ] || [ -z "$filter" ]; then return; fi
  printf 'ls -Rf\n' >&6
  probe_count=$((probe_count + 1))
  settle
  flush given
  if [ -z "$ended" ]; then known_paths=("${given_lines[@]}"); fi
}

# Adds to `candidates` the paths that begin like a word, each up to its next slash: those of groups alone where a command takes these.
add_paths() {
  local path rest word=$1
  learn_paths
  for path in "${known_paths[@]}"; do
    if [[ -z $path || $path != "$word"* || $path = *\"* ]]; then continue; fi
    rest=${path:${#word}}
    if [[ $rest = */* ]]; then rest=${rest%%/*}/; fi
    if [[ $rest != */ ]] && is_among "${parts[0]}" 'ls mkdir rmdir'; then continue; fi
    if [ "$(shown "$path")" = "$path" ]; then candidates+=("$word$rest"); fi
  done
}

# Sets `candidates` to what a word may become that stands after `parts`.
find_candidates() {
  local row one
  candidates=()
  if [ "${#parts[@]}" = 0 ]; then
    for one in $line_commands quit help; do if [[ $one = "$1"* ]]; then candidates+=("$one"); fi; done
  elif [[ $1 = -* ]] && is_among "${parts[0]}" "$line_commands"; then
    for row in ${option_rows[${parts[0]}]}; do
      one=--${row%%:*}
      if [[ $one = "$1"* ]] && ! is_among "$one" '--key-file --no-password --plain'; then candidates+=("$one"); fi
    done
  elif is_among "${parts[0]}" 'ls show add edit mv rm mkdir rmdir'; then
    add_paths "$1"
  fi
  mapfile -t candidates < <(if [ "${#candidates[@]}" != 0 ]; then printf '%s\n' "${candidates[@]}" | LC_ALL=C sort -u; fi)
}

# What all candidates begin with.
common_beginning() {
  local common=${candidates[0]} one
  for one in "${candidates[@]:1}"; do
    while [[ $one != "$common"* ]]; do common=${common%?}; done
  done
  printf '%s' "$common"
}

# Completes the word at which the prompt stands, and shows what it may become where that is several things.
complete_line() {
  local typed=${READLINE_LINE:0:READLINE_POINT} rest=${READLINE_LINE:READLINE_POINT} word='' common parts candidates before_part
  local IFS=$' \t\n'
  cut_line "$typed"
  if [ "${#before_part}" != "${#typed}" ]; then
    word=${parts[-1]}
    unset 'parts[-1]'
  fi
  find_candidates "$word"
  if [ "${#candidates[@]}" = 0 ]; then return; fi
  common=$(common_beginning)
  if [ "${#candidates[@]}" -gt 1 ] && [ "$common" = "$word" ]; then
    printf '%s\n' "${candidates[@]:0:100}" >&"$screen"
  fi
  if [[ $common = *' '* ]]; then common=\"$common; fi
  if [ "${#candidates[@]}" = 1 ] && [[ $common != */ ]]; then
    if [[ $common = \"* ]]; then common+=\"; fi
    common+=' '
  fi
  READLINE_LINE=$before_part$common$rest
  READLINE_POINT=$((${#before_part} + ${#common}))
}

# ---- one line

# Reads a line at the prompt into `typed`. Fails at the end of the input.
prompt() {
  local code
  stty echo -echonl <&8
  asking=1
  IFS= read -e -r -p "keepass $(shown "$database")> " typed <&8 2>&"$screen"
  code=$?
  stty -echo <&8
  if [ "$code" != 0 ]; then tell $'\n'; fi
  asking=''
  return "$code"
}

# Forgets what was typed before a question, as the rest of lines that were pasted: it is no answer to it. That an answer ends is shown.
forget_typed() {
  stty -icanon min 0 time 0 <&8
  cat <&8 >/dev/null
  stty icanon min 1 echonl <&8
}

# Asks for the lines that the command of a line reads, after the line itself. At the end of the input the program reads no more.
ask_for_lines() {
  local line
  for line in "${lines[@]}"; do
    due_lines[sent]=$line
    sent=$((sent + 1))
  done
  if [ "${#lines[@]}" = 0 ]; then return; fi
  forget_typed
  if ! ask; then close_input; fi
}

# Carries out a line that was typed.
do_line() {
  local command='' reason='' positions=() repeated=() lines=() parts=() databases=() before_part
  if ! cut_line "$1"; then
    because "a quotation mark has no end: a name with spaces stands in two of them"
  elif [ "${#parts[@]}" = 0 ]; then
    send "$1"
    return
  elif line_help; then
    return
  elif [ "${#parts[@]}" != 1 ] || ! is_among "${parts[0]}" 'quit exit'; then
    read_line_words "${parts[@]}"
  fi
  send "$1"
  if [ -n "$command" ] && [ -z "$reason" ] && is_short "$1"; then
    lines_of
    lines=("${lines[@]:${#asked[@]}}")
    ask_for_lines
  fi
  if is_among "$command" "$writing_commands"; then
    known_paths=()
    settle 1
  else
    settle
  fi
  flush shown
  refuse_line
  tell_age
}

# All lines of a session have the time at which it began, and a one-time code goes by the time.
tell_age() {
  local age=$((SECONDS - began))
  if [ -n "$hints" ] && [ "$command" = show ] && [ -z "$reason$refusal" ] && is_given totp && [ "$age" -ge 5 ]; then
    show_hint "the code is that of the moment at which the session began, $age seconds ago: quit, and open it anew" >&2
  fi
}

# Whether the program reads a line as a line: one of at most 4096 bytes, in UTF-8.
is_short() {
  local LC_ALL=C
  [ "${#1}" -le 4096 ] && is_utf8 "$1"
}

# Shows the refusal of a line, in which lines are counted as they were typed.
refuse_line() {
  local status=$status
  if [ -z "$refusal" ]; then return; fi
  if [[ $refusal =~ ^'keepass: input: line '([0-9]+)' '(.*)$ ]]; then
    refusal="keepass: input: line $((BASH_REMATCH[1] - probe_count + 2)) ${BASH_REMATCH[2]}"
  fi
  if [ -z "$ended" ]; then
    case $refusal in 'keepass: words: '*) status=1 ;; *) status=2 ;; esac
  fi
  refuse
}

# ---- all lines

# A session whose lines are typed.
typed_session() {
  local folder='' filter='' mark='' told='' screen='' closed='' ended='' typed='' last='' database=${positions[0]} in_session=''
  local began=$SECONDS sent=${#lines[@]} probe_count=0 asked=("${lines[@]}") opened_by=() known_paths=() given_lines=()
  keep_opening
  open_session_streams
  start_session "$@"
  if ! ask; then close_input; fi
  settle 1
  refuse_line
  in_session=1
  set_keys
  while [ -z "$ended" ] && prompt; do
    if [ -n "$typed" ] && [ "$typed" != "$last" ]; then history -s -- "$typed"; fi
    last=$typed
    do_line "$typed"
  done
  if [ -z "$ended" ]; then
    close_input
    settle
    refuse_line
  fi
  exec 4>&-
  if [ -n "$filter" ]; then wait "$filter"; fi
}

# A session whose lines come from elsewhere: a terminal shows what is printed and refused as it comes, and a hint on the refusal that
# ended the session.
read_session() {
  local folder='' filter='' line=''
  open_pipes
  if [ -t 2 ]; then
    exec 5<>"$folder/lines" 7<"$folder/lines"
    exec 5>"$folder/lines"
  fi
  start "$@"
  exec 5>&- 6>&-
  while IFS= read -r line <&7; do
    refusal=$line
    printf '%s\n' "$line" | visible >&2
  done
  wait "$child"
  status=$?
  exec 4>&-
  if [ -n "$filter" ]; then wait "$filter"; fi
  if [ "$status" != 0 ] && [ -n "$hints" ]; then hint >&2; fi
}

# `keepass open` where a standard stream is a terminal.
session() {
  if is_typed_session; then typed_session "$@"; else read_session "$@"; fi
}
