# Which files a call touched, for the scripts that source this file and have `failed`.

# files_seen: every file in and below the folder but those that the tests write for themselves: kind, number, permissions, length and
# time of change, and its name.
files_seen() {
  find . -mindepth 1 -regex '\./\(out\|err\|want-out\|want-err\|input\|lines\|line\|report\|rows\|said\|before\|after\)\.txt' -o \
    \( -type d -printf '%y - %m - - %p\n' \) -o -printf '%y %i %m %s %T@ %p\n'
}

# touched BEFORE AFTER: the names of the files that are not as they were.
touched() {
  LC_ALL=C diff <(LC_ALL=C sort <<<"$1") <(LC_ALL=C sort <<<"$2") | sed -En 's/^[<>] ([^ ]+ ){5}//p' | LC_ALL=C sort -u
}

# may_touch NAME COUNT BEFORE: of the files that were seen before no more than so many are other ones now, or are gone, or are new. The
# one that a command writes is one of them; a file that the words name and the call should not touch is none.
may_touch() {
  local name=$1 count=$2 before=$3 after names
  after=$(files_seen)
  if [ "$before" = "$after" ]; then return; fi
  names=$(touched "$before" "$after")
  if [ -n "$names" ] && [ "$(wc -l <<<"$names")" -gt "$count" ]; then
    failed=$((failed + 1))
    echo "FAILED: $name: files were changed:"
    echo "$names"
  fi
}
