#!/bin/sh
# Verifies a long list of proofs over many processors or machines: splits it into lists of at most 256 jobs, runs `zk batch` over each, and
# prints the verdicts in the order of the list, each with its job's number in the whole list, and the line of their counts.
#
#   examples/many.sh LIST                         on this machine, as many pieces at once as it has processors
#   HOSTS=4/alpha,8/beta examples/many.sh LIST    4 pieces at once on alpha and 8 on beta, by ssh; `:` is this machine
#
# A line of LIST is one of `zk batch`: CIRCUIT PUBLIC PROOF [session=HEX], with names from the folder that this is run in. A host has `zk` and
# all files at the same paths, this folder too, which pieces are put into. ZK names the program, WORKERS the workers of a piece (1).
#
# A job with a file that is missing or refused is named on standard error, and its piece is run again without it. A piece that does not end
# with a verdict for each of its jobs, as one that is killed, is named there too and run again, 3 times at most in all. Ends with 0 where every
# proof is accepted, 1 where one is rejected, 3 where a job was refused, and 5 where a piece never ended. GNU parallel shares the pieces out;
# without it xargs does, on this machine alone.
case ${1-} in
  -h | --help) sed -n '2,14s/^# \{0,1\}//p' "$0"; exit 0 ;;
esac
zk=${ZK:-$(cd "$(dirname "$0")/.." && pwd)/zk}
list=${1:-}
[ $# -eq 1 ] && [ -r "$list" ] || { echo "many.sh LIST, or many.sh --help" >&2; exit 2; }
work=$(mktemp -d "$PWD/many.XXXXXX") || exit 5
trap 'rm -rf "$work"' EXIT
trap 'exit 130' INT TERM

# A piece has at most 256 jobs and 65,536 bytes, as a list may have; beside it stand its jobs' numbers in the whole list.
LC_ALL=C awk -v folder="$work" '
  /^[ \t\r]*$/ { next }
  {
    size = length($0) + 1
    if (piece == "" || jobs == 256 || bytes + size > 65536) {
      if (piece != "") { close(piece); close(piece ".jobs") }
      piece = sprintf("%s/piece%06d", folder, ++count)
      jobs = bytes = 0
    }
    print > piece
    print ++number > (piece ".jobs")
    jobs++
    bytes += size
  }' "$list"

# Runs one piece: what it prints, and how it ended once it did.
cat > "$work/one" <<'ONE'
#!/bin/sh
rm -f "$1.status"
"$2" batch "$1" "workers=$3" > "$1.said"
echo $? > "$1.ended" && mv "$1.ended" "$1.status"
ONE
chmod +x "$work/one"

# Runs each of these pieces, by its name.
share_out() {
  if command -v parallel >/dev/null; then
    parallel --will-cite -q ${HOSTS:+--sshlogin "$HOSTS"} --workdir "$PWD" "$work/one" {} "$zk" "${WORKERS:-1}"
  elif [ -n "${HOSTS:-}" ]; then
    echo "HOSTS needs GNU parallel" >&2
    return 2
  else
    tr '\n' '\0' | xargs -0 -P "$(nproc)" -I {} "$work/one" {} "$zk" "${WORKERS:-1}"
  fi
}

# Whether a piece has a verdict for each job, and the line of the counts; or was refused.
ended() {
  case $(cat "$1.status" 2>/dev/null) in
    0 | 1) [ "$(wc -l < "$1.said")" -eq $(($(wc -l < "$1") + 1)) ] ;;
    3) true ;;
    *) false ;;
  esac
}

# The numbers of a piece's jobs, for a message.
numbers() { echo "jobs $(head -1 "$1.jobs") to $(tail -1 "$1.jobs")"; }

# Takes the job out of a piece that its refusal is of: the first that names the file, or the one at the line of a list that is malformed.
take_out() {
  awk -v piece="$1" '
    FILENAME ~ /\.said$/ { if (!at && $2 == piece) at = $5 + 0; name = $2; said = $0; next }
    !place && (at ? FNR == at : $1 == name || $2 == name || $3 == name) { place = FNR }
    END { if (place) { print place; print said } }' "$1.said" "$1" > "$1.out"
  [ -s "$1.out" ] || return 1
  place=$(head -1 "$1.out")
  echo "job $(sed -n "${place}p" "$1.jobs"): $(tail -1 "$1.out" | sed "s|$1 at line [0-9]*|the line|")" >&2
  for file in "$1" "$1.jobs"; do
    sed "${place}d" "$file" > "$file.less" && mv "$file.less" "$file"
  done
  echo refused > "$work/refused"
}

# Runs what is left again and again: a piece without a job that was refused, and one that did not end, which counts.
ls "$work"/piece?????? > "$work/left" 2>/dev/null
try=1
while [ -s "$work/left" ] && [ $try -le 3 ]; do
  share_out < "$work/left"
  [ $? -eq 2 ] && exit 2
  : > "$work/again"
  killed=0
  while read -r piece; do
    if [ "$(cat "$piece.status" 2>/dev/null)" = 3 ]; then
      take_out "$piece" && [ -s "$piece" ] && echo "$piece" >> "$work/again"
    elif ! ended "$piece"; then
      echo "$(numbers "$piece"): no whole answer at try $try (status $(cat "$piece.status" 2>/dev/null || echo unknown))" >&2
      echo "$piece" >> "$work/again"
      killed=1
    fi
  done < "$work/left"
  try=$((try + killed))
  mv "$work/again" "$work/left"
done

status=0
for piece in "$work"/piece??????; do
  [ -s "$piece" ] || continue
  if ! ended "$piece"; then
    status=5
  elif [ "$(cat "$piece.status")" = 3 ]; then
    echo "$(numbers "$piece"): $(cat "$piece.said")" >&2
    [ $status -eq 5 ] || status=3
  else
    awk 'FILENAME ~ /\.jobs$/ { job[FNR] = $1; next } /^[0-9]+: / { at = index($0, ":"); print job[substr($0, 1, at - 1)] substr($0, at) }' \
      "$piece.jobs" "$piece.said" | tee -a "$work/verdicts"
    [ "$(cat "$piece.status")" = 1 ] && [ $status -eq 0 ] && status=1
  fi
done
[ -e "$work/refused" ] && [ $status -ne 5 ] && status=3
touch "$work/verdicts"
accepted=$(grep -c ': accepted$' "$work/verdicts")
echo "batch: $accepted accepted, $(($(wc -l < "$work/verdicts") - accepted)) rejected"
exit $status
