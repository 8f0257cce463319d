#!/usr/bin/env bash
# bounds.sh [--degree D] FOLDER..: whether the programs in these folders, and in the folders in them, keep their bounds.
#
#   NAME.bounds beside NAME.raml: each bound that it declares is kept (explain budget)
#   NAME.cert beside NAME.raml:   the certificate holds of the program (raml verify)
#
# What is wrong goes to standard output, and a line that counts. The status is 0 where all is kept and holds, 1 where
# something is not, and 2 where nothing could be checked. The programs are those on the PATH, or $RAML and $EXPLAIN.
set -u
raml=${RAML:-raml} explain=${EXPLAIN:-explain}
degree=()
if [ "${1:-}" = --degree ]; then
  degree=(--degree "${2:?bounds.sh: --degree D}")
  shift 2
fi

stop() {
  echo "bounds.sh: $*" >&2
  exit 2
}

[ $# -gt 0 ] || stop 'which folders? bounds.sh [--degree D] FOLDER..'
for folder in "$@"; do [ -d "$folder" ] || stop "$folder is no folder"; done
for program in "$raml" "$explain"; do command -v "$program" >/dev/null || stop "the program $program is not here"; done

kept=0 held=0 wrong=0

# has_program FILE: whether the program of these bounds, or of this certificate, is there.
has_program() {
  [ -f "${1%.*}.raml" ] || { echo "$1: there is no program ${1%.*}.raml"; return 1; }
}

# keeps BOUNDS: whether the program keeps its bounds; the lines that it does not keep are told.
keeps() {
  local said status
  has_program "$1" || return 1
  said=$("$explain" budget ${degree[@]+"${degree[@]}"} "${1%.*}.raml" "$1" 2>&1)
  status=$?
  kept=$((kept + $(grep -c '^[^ ]* [^ ]* kept: ' <<<"$said")))
  [ $status -eq 0 ] && return
  if [ $status -eq 1 ]; then
    echo "$1: the program does not keep its bounds (status $status)"
  else
    echo "$1: the bounds could not be checked (status $status)"
  fi
  grep -v '^[^ ]* [^ ]* kept: ' <<<"$said" | sed 's/^/  /'
  return 1
}

# holds CERT: whether the certificate holds of the program; where it does not, it is told in words.
holds() {
  local status
  has_program "$1" || return 1
  "$raml" verify "${1%.*}.raml" "$1" >/dev/null 2>&1
  status=$?
  [ $status -eq 0 ] && return
  echo "$1: the certificate does not hold of the program (status $status)"
  "$explain" verify "${1%.*}.raml" "$1" 2>&1 | sed 's/^/  /'
  return 1
}

while IFS= read -r -d '' file; do
  case $file in
    *.bounds) keeps "$file" || wrong=$((wrong + 1)) ;;
    *) if holds "$file"; then held=$((held + 1)); else wrong=$((wrong + 1)); fi ;;
  esac
done < <(find "$@" \( -name '*.bounds' -o -name '*.cert' \) -type f -print0 | LC_ALL=C sort -z)

[ $((kept + held + wrong)) -gt 0 ] || stop 'there are no declared bounds and no certificates'
echo "bounds.sh: $kept bounds are kept, $held certificates hold, $wrong files are wrong"
[ $wrong -eq 0 ]
