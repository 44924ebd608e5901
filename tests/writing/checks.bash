# What is written of documents, for tests/run: it sources this file, and has `top`, `passed` and `failed`.

# The program that writes documents, as the gate leaves it.
writer=$(ls -t "$top"/crates/bench_files/out/bench_files "$top"/crates/bench_files/out/bench_files.by-rattle 2>/dev/null | head -1)
compare=$top/tests/writing/compare

# The first Python that has pykeepass, which Debian installs for its own.
with_pykeepass=
for python in python3 /usr/bin/python3; do
  if [ -z "$with_pykeepass" ] && "$python" -c 'import pykeepass' 2>/dev/null; then with_pykeepass=$python; fi
done

# check NAME COMMAND...: the command ends with status 0.
check() {
  local name=$1
  shift
  if "$@" >report.txt 2>&1 </dev/null; then passed=$((passed + 1)); else
    failed=$((failed + 1))
    echo "FAILED: $name"
    head -20 report.txt
  fi
}

# keepassxc_import XML DATABASE: has KeePassXC make a database of a document, in a tenth of a second of key derivation.
keepassxc_import() {
  printf 'one two three\none two three\n' | QT_QPA_PLATFORM=offscreen keepassxc-cli import -q -t 100 -p "$1" "$2"
}

# written NAME FILE: the document of a file is written as others read it.
written() {
  local name=$1 document=$2
  rm -f written.xml again.xml written.kdbx
  check "$name is written" sh -c '"$1" write text "$2" >written.xml' sh "$writer" "$document"
  check "$name, written twice, is the same" sh -c '"$1" write text written.xml >again.xml && cmp written.xml again.xml' sh "$writer"
  check "$name, read again by the reader in Python" python3 "$compare" documents "$document" written.xml
  if [ -n "$xmllint" ]; then check "$name, well formed by xmllint" xmllint --noout written.xml; fi
  if [ -z "$keepassxc" ]; then return; fi
  check "$name, imported by KeePassXC" keepassxc_import written.xml written.kdbx
  check "$name, exported by KeePassXC" python3 "$compare" keepassxc "$document" written.kdbx
  if [ -n "$with_pykeepass" ]; then
    check "$name, read by pykeepass in KeePassXC's database" "$with_pykeepass" "$compare" pykeepass "$document" written.kdbx
  fi
}

# unwritten NAME FILE: a document that is refused is not written, and one line reports it.
unwritten() {
  "$writer" write text "$2" >out.txt 2>err.txt </dev/null
  if [ $? != 0 ] && [ ! -s out.txt ] && [ "$(wc -l <err.txt)" = 1 ]; then passed=$((passed + 1)); else
    failed=$((failed + 1))
    echo "FAILED: $1 is written"
  fi
}

# databases DATA: the databases of a folder, each as pykeepass reads it, in a document by itself.
databases() {
  local name password key_file
  while IFS=$'\x1f' read -r name password key_file; do
    "$with_pykeepass" "$compare" plain "$1/$name.kdbx" "$password" "${key_file:+$1/$key_file}" >document.xml
    written "the document of $name" document.xml
  done < <(tr '\t' '\037' <"$1/databases")
  rm -f document.xml
}

# at_the_limits: documents of as many nodes and of as long a text as may be, and of more.
at_the_limits() {
  local number task wanted name got
  rm -rf limits
  mkdir limits
  "$top/tests/writing/make" limits || failed=$((failed + 1))
  while IFS=$'\t' read -r number task wanted name; do
    "$writer" write "$task" "limits/$number.xml" >out.txt 2>err.txt </dev/null
    got=$?
    case $wanted in
      Not*) [ $got != 0 ] && [ ! -s out.txt ] && [ "$(cat err.txt)" = "$wanted" ] ;;
      *) [ $got = 0 ] && [ ! -s err.txt ] && [ "$(cat out.txt)" = "$wanted" ] ;;
    esac
    if [ $? = 0 ]; then passed=$((passed + 1)); else
      failed=$((failed + 1))
      echo "FAILED: written at the limits: $name: $(head -c 200 out.txt) $(head -c 200 err.txt) instead of $wanted"
    fi
  done <limits/list
  rm -rf limits
}

# written_documents DATA: the exports of KeePassXC in a folder, its databases, the example, a document with all that documents
# hold, and documents at the limits.
written_documents() {
  local xmllint keepassxc
  if [ -z "$writer" ]; then
    echo 'skipped: what is written; run `rt run` in crates/bench_files to build its program'
    return
  fi
  xmllint=$(command -v xmllint) || echo 'skipped: written documents by xmllint, which is not installed'
  keepassxc=$(command -v keepassxc-cli) || echo 'skipped: written documents in KeePassXC and pykeepass; keepassxc-cli is not installed'
  if [ -z "$with_pykeepass" ]; then echo 'skipped: written documents in pykeepass, and those of databases; pykeepass is not installed'; fi
  written 'an export of KeePassXC' "$1/keepassxc-export.xml"
  written 'an export of KeePassXC with what KDBX 4.1 added' "$1/keepassxc-4.1-export.xml"
  written 'the example' "$top/examples/family.xml"
  written 'a document with everything' "$top/crates/bench_files/data/rich.xml"
  unwritten 'an export of KeePassXC without its binaries' "$1/keepassxc-attachment.xml"
  # The same document with the binary that KeePassXC left out.
  sed 's|^\t\t<SettingsChanged>|\t\t<Binaries><Binary ID="0">YmluYXJ5AAEC/w==</Binary></Binaries>\n&|' "$1/keepassxc-attachment.xml" >attachment.xml
  written 'an export of KeePassXC with its binary' attachment.xml
  if [ -n "$with_pykeepass" ]; then databases "$1"; fi
  rm -f attachment.xml written.xml again.xml written.kdbx
  at_the_limits
}
