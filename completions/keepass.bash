# Made by docs/make-words from docs/commands.toml.

# Files that begin so, databases alone where there are any.
_keepass_files() {
  local IFS=$'\n' found
  compopt -o filenames
  found=$(compgen -f -X '!*.kdbx' -- "$1"; compgen -d -- "$1")
  if [ -z "$found" ] || [ "$2" = all ]; then found=$(compgen -f -- "$1"); fi
  COMPREPLY=($found)
}

# Paths of a database that begin so, of entries or of groups: only where KEEPASS_COMPLETE_PASSWORD_COMMAND prints its password.
_keepass_paths() {
  local path database=${1//\\/}
  if [ -z "${KEEPASS_COMPLETE_PASSWORD_COMMAND-}" ]; then return; fi
  compopt -o filenames
  while IFS= read -r path; do
    case $3$path in
      entry*/ | group*[!/]) continue ;;
    esac
    if [[ $path = "$2"* ]]; then COMPREPLY+=("$path"); fi
  done < <(eval "$KEEPASS_COMPLETE_PASSWORD_COMMAND" 2>/dev/null | keepass ls -Rf -- "${database/#\~\//$HOME/}" 2>/dev/null)
}

_keepass() {
  local word=${COMP_WORDS[COMP_CWORD]} before=${COMP_WORDS[COMP_CWORD - 1]} command=${COMP_WORDS[1]} options kinds kind place=0 first='' number value=''
  COMPREPLY=()
  # The shell makes three words of --format=csv.
  if [ "$word" = = ]; then word=; elif [ "$before" = = ]; then before=${COMP_WORDS[COMP_CWORD - 2]}; fi
  if [ "$COMP_CWORD" -eq 1 ]; then
    case $word in
      -*) COMPREPLY=($(compgen -W '--help --version --why' -- "$word")) ;;
      *) COMPREPLY=($(compgen -W 'ls show history search add edit mv rm mkdir rmdir merge import db-create export db-edit db-info open generate selftest attachment-export attachment-import attachment-rm clip' -- "$word")) ;;
    esac
    return
  fi
  case "$command $before" in
    'import --format') COMPREPLY=($(compgen -W 'xml psafe3 csv bitwarden' -- "$word")); return ;;
    'db-create --cipher') COMPREPLY=($(compgen -W 'aes twofish chacha20' -- "$word")); return ;;
    'db-create --kdf') COMPREPLY=($(compgen -W 'aes argon2d argon2id' -- "$word")); return ;;
    'export -f' | 'export --format') COMPREPLY=($(compgen -W 'xml csv' -- "$word")); return ;;
    'db-edit --cipher') COMPREPLY=($(compgen -W 'aes twofish chacha20' -- "$word")); return ;;
    'db-edit --kdf') COMPREPLY=($(compgen -W 'aes argon2d argon2id' -- "$word")); return ;;
    'db-edit --version') COMPREPLY=($(compgen -W '3.1 4.0 4.1' -- "$word")); return ;;
    'edit -t' | 'export -f' | 'clip -t') return ;;
  esac
  case $before in
    --key-file | --key-file-from | --set-key-file | -k) _keepass_files "$word" all; return ;;
    --at | --attributes | --cipher | --exclude | --expires | --kdf | --lanes | --length | --memory | --name | --notes | --restore | --rounds | --seconds | --set | --tag | --title | --unset | --untag | --url | --username | --version | -L | -a | -u | -x) return ;;
  esac
  case $command in
    ls) kinds=(file group) options='-R --recursive -f --flatten --ids -k --key-file --no-password --plain -q --quiet --help' ;;
    show) kinds=(file entry) options='-s --show-protected --all --show-attachments -a --attributes -t --totp --at -k --key-file --no-password --plain -q --quiet --help' ;;
    history) kinds=(file entry) options='-k --key-file --no-password --plain -q --quiet --help' ;;
    search) kinds=(file nothing) options='-k --key-file --no-password --plain -q --quiet --help' ;;
    add) kinds=(file entry) options='-u --username --url --notes -p --password-prompt -g --generate -L --length -l --lower -U --upper -n --numeric -s --special -x --exclude -k --key-file --no-password --plain -q --quiet --help' ;;
    edit) kinds=(file entry) options='-t --title -u --username --url --notes -p --password-prompt -g --generate -L --length -l --lower -U --upper -n --numeric -s --special -x --exclude --otp --set --protect --unset --tag --untag --expires --restore -k --key-file --no-password --plain -q --quiet --help' ;;
    mv) kinds=(file node group) options='-k --key-file --no-password --plain -q --quiet --help' ;;
    rm) kinds=(file entry) options='-k --key-file --no-password --plain -q --quiet --help' ;;
    mkdir) kinds=(file group) options='-k --key-file --no-password --plain -q --quiet --help' ;;
    rmdir) kinds=(file group) options='-k --key-file --no-password --plain -q --quiet --help' ;;
    merge) kinds=(file file...) options='-s --same-credentials -d --dry-run --details --key-file-from --no-password-from -k --key-file --no-password --plain -q --quiet --help' ;;
    import) kinds=(file file) options='--format -p --set-password --set-key-file --plain -q --quiet --help' ;;
    db-create) kinds=(file) options='-p --set-password --set-key-file --cipher --kdf --rounds --memory --lanes --name --plain -q --quiet --help' ;;
    export) kinds=(file) options='-f --format -k --key-file --no-password --plain -q --quiet --help' ;;
    db-edit) kinds=(file) options='-p --set-password --set-key-file --unset-password --unset-key-file --cipher --kdf --rounds --memory --lanes --version -k --key-file --no-password -q --quiet --help' ;;
    db-info) kinds=(file) options='-k --key-file --no-password --plain -q --quiet --help' ;;
    open) kinds=(file) options='-k --key-file --no-password --plain -q --quiet --help' ;;
    generate) kinds=() options='-L --length -l --lower -U --upper -n --numeric -s --special -x --exclude --help' ;;
    selftest) kinds=(count) options=' --help' ;;
    attachment-export) kinds=(file entry nothing any) options='--stdout -k --key-file --no-password --plain -q --quiet --help' ;;
    attachment-import) kinds=(file entry nothing any) options='-f --force -k --key-file --no-password --plain -q --quiet --help' ;;
    attachment-rm) kinds=(file entry nothing) options='-k --key-file --no-password --plain -q --quiet --help' ;;
    clip) kinds=(file entry field) options='-t --seconds -k --key-file --no-password --plain -q --quiet --help' ;;
    *) return ;;
  esac
  if [ "${word:0:1}" = - ]; then
    COMPREPLY=($(compgen -W "$options" -- "$word"))
    return
  fi
  for ((number = 2; number < COMP_CWORD; number++)); do
    case $value${COMP_WORDS[number]} in
      *=) value=1 ;;
      1*) value= ;;
      --at | --attributes | --cipher | --exclude | --expires | --format | --kdf | --key-file | --key-file-from | --lanes | --length | --memory | --name | --notes | --restore | --rounds | --seconds | --set | --set-key-file | --tag | --title | --unset | --untag | --url | --username | --version | -L | -a | -k | -u | -x) value=1 ;;
      -*) case "$command ${COMP_WORDS[number]}" in 'edit -t' | 'export -f' | 'clip -t') value=1 ;; esac ;;
      *)
        place=$((place + 1))
        if [ "$place" = 1 ]; then first=${COMP_WORDS[number]}; fi
        ;;
    esac
  done
  if [ "$place" -ge "${#kinds[@]}" ]; then
    kind=${kinds[*]: -1}
    if [ "$kind" = "${kind%...}" ]; then return; fi
  else
    kind=${kinds[place]}
  fi
  case $kind in
    file*) _keepass_files "$word" ;;
    any) _keepass_files "$word" all ;;
    field) COMPREPLY=($(compgen -W 'Password UserName URL Notes Title' -- "$word")) ;;
    nothing) ;;
    *) _keepass_paths "$first" "$word" "$kind" ;;
  esac
}
complete -F _keepass keepass
