# `keepass clip`: a value goes to the clipboard, and leaves it again.

# The program for the clipboard of this session, if one is installed.
find_clipboard() {
  clipboard=''
  if [ -n "${WAYLAND_DISPLAY-}" ] && command -v wl-copy >/dev/null && command -v wl-paste >/dev/null; then
    clipboard=wl-copy
  elif [ -n "${DISPLAY-}" ] && command -v xclip >/dev/null; then
    clipboard=xclip
  elif [ -n "${DISPLAY-}" ] && command -v xsel >/dev/null; then
    clipboard=xsel
  elif command -v pbcopy >/dev/null; then
    clipboard=pbcopy
  fi
  [ -n "$clipboard" ]
}

# Copies what is read.
copy() {
  case $clipboard in
    wl-copy) wl-copy ;;
    xclip) xclip -selection clipboard -in ;;
    xsel) xsel --clipboard --input ;;
    pbcopy) pbcopy ;;
  esac >/dev/null 2>&1
}

# What is in the clipboard, as a sum: the value itself is not kept.
sum_of_clipboard() {
  case $clipboard in
    wl-copy) wl-paste --no-newline ;;
    xclip) xclip -selection clipboard -out ;;
    xsel) xsel --clipboard --output ;;
    pbcopy) pbpaste ;;
  esac 2>/dev/null | sha256sum
}

# Clears the clipboard, unless something else is in it by now.
clear_clipboard() {
  if [ "$(sum_of_clipboard)" != "$copied" ]; then return; fi
  copied=''
  case $clipboard in
    wl-copy) wl-copy --clear ;;
    xsel) xsel --clipboard --clear ;;
    *) printf '' | copy ;;
  esac >/dev/null 2>&1
}

# Copies the value that the program prints, without the line feed after it; and nothing where it prints nothing, because it
# refused.
to_clipboard() {
  local first
  trap '' INT QUIT
  if ! IFS= read -r -N 1 first; then return 0; fi
  { printf '%s' "$first" && cat; } | head -c -1 2>/dev/null | copy
}

# Whether the words of `clip` are right beside what other commands check.
read_seconds() {
  if is_given seconds && [[ ! ${given[seconds]} =~ ^[0-9]{1,5}$ ]]; then because "'-t' takes a number of seconds"; fi
}

# Copies a field of an entry, by default its password, and clears the clipboard after some seconds.
clip() {
  local seconds=${given[seconds]-10} field=${positions[2]-Password} options=()
  if is_given plain; then options+=(--plain); fi
  if is_given no-password; then options+=(--no-password); fi
  if is_given key-file; then options+=("--key-file=${given[key-file]}"); fi
  run show "${options[@]}" "--attributes=$field" -- "${positions[0]}" "${positions[1]}"
  unhide
  if [ "$status" != 0 ]; then return; fi
  if [ "$seconds" = 0 ]; then return; fi
  copied=$(sum_of_clipboard)
  if ! is_given quiet; then printf 'Copied %s; the clipboard is cleared in %d seconds.\n' "$(shown "$field")" "$((10#$seconds))"; fi
  sleep "$seconds" &
  wait $!
  clear_clipboard
}
