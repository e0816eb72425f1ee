#!/usr/bin/env bash
# Builds the plugin, dumps what tests/*.v ask for, and gives the dumps to erasec.
#
#     coq-dump/test.sh [ERASEC]
#
# ERASEC is the program; without it the one that `rt ci` left in crates/erasec/out. Each tests/out/NAME.check.dump and NAME.run.dump must be accepted by
# `check`, and each NAME.refused.dump be refused by a rule of typing; each NAME.run.dump with a NAME.value must have that value by `eval` and by `exec`, where the
# program has these jobs for it, and each NAME.exec.dump by `exec` alone. A job that it hasn't yet is told as skipped, and the one run that is known to take more turns than a job has is told
# apart: it says nothing of the value. Without coqc the whole is skipped. The files of tests/packages need a package that their first line names, and are told as skipped where it isn't there, or where
# COQ_DUMP_PACKAGES is no; their dumps, NAME.exec.dump and NAME.long.dump (for `check`), get all turns. The files of tests/told end in a refusal, whose message must be NAME.said.
set -uo pipefail
here=$(cd "$(dirname "$0")" && pwd)
erasec=${1:-}
for built in "$here"/../crates/erasec/out/erasec "$here"/../crates/erasec/out/erasec_*; do
  [ -z "$erasec" ] && [ -x "$built" ] && erasec=$built
done
if ! command -v coqc >/dev/null || ! command -v ocamlfind >/dev/null; then
  echo "coq-dump: skipped, since coqc or ocamlfind is missing (Debian: coq, libcoq-core-ocaml-dev, ocaml-findlib)"
  exit 0
fi
if [ ! -x "$erasec" ]; then
  echo "coq-dump: no erasec at '$erasec'; build it by rt run or rt ci, or name it"
  exit 2
fi
erasec=$(realpath "$erasec")
passed=0 failed=0 skipped=0 spent=0
pass() { passed=$((passed + 1)); }
fail() { failed=$((failed + 1)); echo "coq-dump: FAILED $1"; }

out=$here/tests/out
rm -rf "$out"
mkdir -p "$out"
make -s -C "$here" >"$out/build.log" 2>&1 || { echo "coq-dump: the plugin doesn't build"; tail -5 "$out/build.log"; exit 1; }
export ERASEC=$erasec ERASEC_TYPES_OF=$here/../tools/types-of
contributions=$(coqc -where)/user-contrib

# Compiles a file of the present folder, in which out stands for the folder of dumps.
compile() {
  if timeout 300 coqc -w none "${@:2}" -R "$here/theories" ErasecDump -I "$here/src" "$1" >"$out/coqc.log" 2>&1; then pass; else fail "$1: coqc"; tail -5 "$out/coqc.log"; fi
}

cd "$here/tests" || exit 2
"$erasec" export </dev/null >/dev/null 2>&1
exports=$?
for file in *.v; do
  if [ "$file" = exporting.v ] && [ "$exports" = 2 ]; then skipped=$((skipped + 1)); else compile "$file"; fi
done
for left in older late; do
  if [ -e "out/$left.dump" ]; then fail "a refusal left out/$left.dump"; else pass; fi
done

# ------------------------------------------------------------------ packages

# MenhirLib with an inductive buffer is built once, and kept.
menhir_library=$here/menhir/MenhirLib
prepare_menhir() {
  [ -f "$menhir_library/Main.vo" ] || "$here/menhir/build" "$menhir_library" >"$out/menhir.log" 2>&1 || { fail "menhir/build"; tail -5 "$out/menhir.log"; return; }
  menhir --coq arithmetic.vy >"$out/menhir.log" 2>&1 || fail "menhir --coq"
  compile arithmetic.v -R "$menhir_library" MenhirLib
}

# Whether a file of tests/packages can be compiled; told where it can't.
has_needs() {
  local need
  need=$(sed -n '1s/^(\* needs: \(.*\) \*)$/\1/p' "$1")
  [ "${COQ_DUMP_PACKAGES:-}" = no ] && { echo "coq-dump: skipped $1, as COQ_DUMP_PACKAGES says"; return 1; }
  [ "$need" = - ] && return 0
  [ -d "$contributions/$need" ] && { [ "$need" != MenhirLib ] || command -v menhir >/dev/null; } && return 0
  echo "coq-dump: skipped $1, since $need is missing"
  return 1
}

cd packages || exit 2
ln -sfn ../out out
for file in lia.v mergesort.v gmap.v flocq.v copies.v menhir.v; do
  has_needs "$file" || continue
  if [ "$file" = menhir.v ]; then prepare_menhir; compile "$file" -R "$menhir_library" MenhirLib; else compile "$file"; fi
done
cd .. || exit 2

# ------------------------------------------------------------------ examples

# The dumps of examples/ that come from here, and their values by Coq, or their answers to some calls, are those that are written today.
cd ../examples || exit 2
ln -sfn ../tests/out out
for file in *.v; do
  compile "$file"
  for text in "${file%.v}.dump" "${file%.v}.value" "${file%.v}.answers"; do
    [ -e "../../examples/$text" ] || [ -e "out/$text" ] || continue
    if cmp -s "out/$text" "../../examples/$text"; then pass; else fail "examples/$text isn't what $file gives now"; fi
  done
done
cd ../tests || exit 2

# ------------------------------------------------------------------ the program's answers

# The status and the text that a job gives on a dump; further words go on the line.
run_job() { answer=$(timeout 300 "$erasec" "$1" "${@:3}" <"$2" 2>"$out/err"); status=$?; }

# Runs a job that must answer the value that Coq computed.
compare() {
  local job=$1 dump=$2 value=$3
  run_job "$job" "$dump" "${@:4}"
  if [ "$status" = 2 ] || grep -q '^unsupported Form' out/err; then
    skipped=$((skipped + 1))
  elif [ "$status" = 8 ] && [ "$job $dump" = "eval out/well_founded.run.dump" ]; then
    spent=$((spent + 1))
    echo "coq-dump: $job $dump takes more turns than a job has"
  elif [ "$status" = 0 ] && [ "$answer" = "$(cat "$value")" ]; then
    pass
  else
    fail "$job $dump: status $status, $(cat out/err) $(echo "$answer" | head -c 100)"
  fi
}

for dump in out/*.exec.dump; do
  [ -f "$dump" ] && compare exec "$dump" "${dump%.exec.dump}.value" --turns 4294967295 --steps 4294967295
done
for dump in out/*.check.dump out/*.long.dump out/*.run.dump out/*.refused.dump out/library/*.dump; do
  [ -f "$dump" ] || continue
  case $dump in *.long.dump) run_job check "$dump" --turns 4294967295 ;; *) run_job check "$dump" ;; esac
  case $dump in *.refused.dump) due=9 ;; *) due=0 ;; esac
  if [ "$status" = "$due" ]; then pass; else fail "check $dump: status $status, $(cat out/err)"; fi
  value=${dump%.run.dump}.value
  [ -f "$value" ] || continue
  case $dump in */automatic.run.dump) compare eval "$dump" "$value" --turns 4294967295 ;; *) compare eval "$dump" "$value" ;; esac
  compare exec "$dump" "$value"
done

# ------------------------------------------------------------------ what is told of a refusal

# The last command of each file is refused, and its message is that of NAME.said, where the program has the job that explains it.
cd told || exit 2
for file in *.v; do
  said=$(timeout 300 coqc -w none -R "$here/theories" ErasecDump -I "$here/src" "$file" 2>&1 | sed '1,/^Error:/d')
  run_job explain /dev/null
  if [ "$status" = 2 ]; then skipped=$((skipped + 1))
  elif [ "$said" = "$(cat "${file%.v}.said")" ]; then pass
  else fail "told/$file: $said"; fi
done
cd .. || exit 2

# ------------------------------------------------------------------ a module's types

if command -v node >/dev/null; then
  for module in out/*.wasm; do
    given=()
    arguments=$(basename "${module%.wasm}").arguments
    [ -f "$arguments" ] && given=(-- "$(cat "$arguments")")
    answer=$(node "$here/../tools/read-answer.mjs" "$module" $(cat "${module%.wasm}.types") "${given[@]}" 2>out/err)
    if [ "$answer" = "$(cat "${module%.wasm}.value")" ]; then pass; else fail "node $module: $answer $(cat out/err)"; fi
  done
else
  echo "coq-dump: skipped the modules in node, which is missing"
fi

[ "$skipped" = 0 ] || echo "coq-dump: $skipped runs skipped: the program has no such job for them yet"
echo "coq-dump: $passed passed, $failed failed, $spent without an answer within the turns"
[ "$failed" = 0 ]
