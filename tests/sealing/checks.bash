# What is sealed of documents, for tests/run: it sources this file, and has `top`, `program`, `passed` and `failed`.

# The program that seals documents, as the gate leaves it.
sealer=$(ls -t "$top"/crates/bench_files/out/bench_files "$top"/crates/bench_files/out/bench_files.by-rattle 2>/dev/null | head -1)
sealing=$top/tests/sealing

# holds NAME COMMAND...: the command ends with status 0.
holds() {
  local name=$1
  shift
  if "$@" >report.txt 2>&1 </dev/null; then passed=$((passed + 1)); else
    failed=$((failed + 1))
    echo "FAILED: $name"
    head -20 report.txt
  fi
}

# listed_alike DOCUMENT: the program lists sealed.kdbx as it lists the document that it was made of.
listed_alike() {
  "$program" ls -R --plain "$1" >want.txt && printf '%s\n' "$password" | "$program" ls -R sealed.kdbx | cmp - want.txt
}

# sealed VERSION CIPHER KDF DOCUMENT: the document is sealed, and every program finds it in the file.
sealed() {
  local name="a document sealed as $1 under $2 and $3" document=$4 other
  rm -f sealed.kdbx
  holds "$name" "$sealer" seal-file "$1" "$2" "$3" - "$password" "$document" sealed.kdbx 1
  holds "$name, listed" listed_alike "$document"
  for other in "${others[@]}"; do
    holds "$name, in $other" "$sealing/compare" "$other" "$document" sealed.kdbx "$password"
  done
}

# sealed_old CIPHER: the document is sealed as KDBX 3.1 and listed, and every program finds it in the file. pykeepass and File::KDBX do not read hidden
# attachments of such a file, so they are given the document with open ones, and File::KDBX one in which every time is set too.
sealed_old() {
  local all=("${others[@]}") other
  others=()
  sealed 3.1 "$1" aes/1000 "$sealing/document.xml"
  sed 's/ ProtectInMemory="True">\([^<]*<\/Binary>\)/>\1/' "$sealing/document.xml" >open.xml
  "$sealing/timed" open.xml >timed.xml
  for other in "${all[@]}"; do
    others=("$other")
    case $other in
      pykeepass) sealed 3.1 "$1" aes/1000 open.xml ;;
      file-kdbx) sealed 3.1 "$1" aes/1000 timed.xml ;;
      *) sealed 3.1 "$1" aes/1000 "$sealing/document.xml" ;;
    esac
  done
  others=("${all[@]}")
  rm open.xml timed.xml
}

# unpublished NAME COMMAND...: the command, which seals as sealed.kdbx, ends with a fault of the store; what sealed.kdbx was is as
# it was, and there is no draft.
unpublished() {
  local name=$1 before got
  shift
  before=$(ls -ld sealed.kdbx; cksum sealed.kdbx 2>&1)
  "$@" >report.txt 2>&1 </dev/null
  got=$?
  if [ $got = 1 ] && [ "$(cat report.txt)" = 'NotSealed(FileFault)' ] && [ "$(ls -ld sealed.kdbx; cksum sealed.kdbx 2>&1)" = "$before" ] &&
    ! compgen -G ".sealed.kdbx.*.keepass" >/dev/null; then passed=$((passed + 1)); else
    failed=$((failed + 1))
    echo "FAILED: $name: status $got, $(head -c 200 report.txt)"
    ls -l sealed.kdbx*
  fi
}

# within_a_block COMMAND...: runs a command that can write no more than 1,024 bytes into a file.
within_a_block() (
  trap '' XFSZ
  ulimit -f 1
  exec "$@"
)

# not_sealed: seals on the disk that cannot be published, or not be written whole.
not_sealed() {
  local words=("$sealer" seal-file 4.0 aes aes/1 - "$password" "$sealing/document.xml" sealed.kdbx 1)
  unpublished 'a draft that cannot be written whole' within_a_block "${words[@]}"
  rm -f sealed.kdbx
  mkdir sealed.kdbx
  unpublished 'a folder in the place of the file' "${words[@]}"
  rmdir sealed.kdbx
}

# sealed_rows: what comes of the rows of this folder, which are too dear for the gate.
sealed_rows() {
  local line
  rm -rf limits
  mkdir limits
  "$top/tests/writing/make" limits
  cp "$top/crates/bench_files/data/small.xml" .
  "$sealer" <"$sealing/rows" >report.txt 2>&1
  if [ "$(wc -l <report.txt)" != "$(grep -c '^[^#].* = ' "$sealing/rows")" ]; then echo 'a row has no line' >>report.txt; fi
  while IFS= read -r line; do
    case $line in
      *': ok') passed=$((passed + 1)) ;;
      *)
        failed=$((failed + 1))
        echo "FAILED: sealed, $line"
        ;;
    esac
  done <report.txt
  rm -rf limits small.xml
}

# sealed_documents: one document as KDBX 4.0 under each cipher with each key derivation, as KDBX 3.1 under each cipher, and what KDBX
# 4.1 added as 4.1 under each cipher and each key derivation.
sealed_documents() {
  local password='one two three é' others=() cipher kdf rich=$top/crates/bench_files/data/rich.xml
  if [ -z "$sealer" ]; then
    echo 'skipped: what is sealed; run `rt run` in crates/bench_files to build its program'
    return
  fi
  if [ -n "$(command -v keepassxc-cli)" ]; then others+=(keepassxc); else echo 'skipped: sealed documents in KeePassXC, which is not installed'; fi
  if /usr/bin/python3 -c 'import pykeepass' 2>/dev/null; then others+=(pykeepass); else echo 'skipped: sealed documents in pykeepass, which is not installed'; fi
  if perl -MFile::KDBX -MJSON::PP -e 1 2>/dev/null; then others+=(file-kdbx); else echo 'skipped: sealed documents in File::KDBX, which is not installed'; fi
  for cipher in aes twofish chacha20; do
    sealed_old "$cipher"
    for kdf in aes/1000 argon2d/1/8388608/2 argon2id/1/8388608/2; do
      sealed 4.0 "$cipher" "$kdf" "$sealing/document.xml"
    done
  done
  sealed 4.1 aes argon2d/1/8388608/2 "$rich"
  sealed 4.1 twofish argon2id/1/8388608/2 "$rich"
  sealed 4.1 chacha20 aes/1000 "$rich"
  not_sealed
  sealed_rows
  rm -f sealed.kdbx want.txt report.txt
}
