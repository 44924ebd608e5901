# The tables of documents, for tests/run: it sources this file, and has `program`, `passed` and `failed`, and tests/files.bash.

# The ids that a row writes as @0 to @9: sixteen times the byte 0 to 9.
ids=(AAAAAAAAAAAAAAAAAAAAAA== AQEBAQEBAQEBAQEBAQEBAQ== AgICAgICAgICAgICAgICAg== AwMDAwMDAwMDAwMDAwMDAw== BAQEBAQEBAQEBAQEBAQEBA==
  BQUFBQUFBQUFBQUFBQUFBQ== BgYGBgYGBgYGBgYGBgYGBg== BwcHBwcHBwcHBwcHBwcHBw== CAgICAgICAgICAgICAgICA== CQkJCQkJCQkJCQkJCQkJCQ==)

# answered NAME FILE STATUS TEXT: what the program answers to a document; TEXT is what it prints, or the text of its refusal.
answered() {
  local out='' err='' got got_out got_err before
  if [ "$3" = 0 ]; then out=$4; else err="keepass: $2: $4"$'\n'; fi
  before=$(files_seen)
  "$program" ls --plain "$2" >out.txt 2>err.txt </dev/null
  got=$?
  IFS= read -r -d '' got_out <out.txt
  IFS= read -r -d '' got_err <err.txt
  if [ "$got" = "$3" ] && [ "$got_out" = "$out" ] && [ "$got_err" = "$err" ]; then
    passed=$((passed + 1))
  else
    failed=$((failed + 1))
    echo "FAILED: $1: status $got instead of $3"
    echo "  wanted: ${out:0:100}${err%$'\n'}"
    echo "  got:    ${got_out:0:100}${got_err%$'\n'}"
  fi
  may_touch "$1" 0 "$before"
}

# documents ROWS: every row of a table of documents. README.md beside this file says how a row is read.
documents() {
  local LC_ALL=C name status said where fragment document front number
  local -A frames=()
  while IFS=$'\t' read -r name status said where fragment; do
    case $name in
      '' | '#'*) continue ;;
      frame) frames[$status]=$said; continue ;;
    esac
    document=${frames[$where]%%…*}$fragment${frames[$where]#*…}
    for number in "${!ids[@]}"; do document=${document//"@$number"/"${ids[number]}"}; done
    printf '%b' "${document/¦/}" >row.xml
    printf -v front '%b' "${document%%¦*}"
    printf -v said '%b' "${said/¦/"${#front}"}"
    answered "$name" row.xml "$status" "$said"
  done <"$1"
}

# made FOLDER: every document that was made in a folder, which has their list.
made() {
  local LC_ALL=C name status number said
  cd "$1" || return
  while IFS=$'\t' read -r number status name; do
    IFS= read -r -d '' said <"$number.want"
    answered "$name" "$number.xml" "$status" "$said"
  done <list
  cd - >/dev/null || return
}
