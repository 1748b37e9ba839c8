#!/usr/bin/env bash
# Tries the wrong bodies that the gate does not try: crates/NAME/wrong/*.edit, of the named crates or of all. Each is a
# change of one line that the prover has to refuse. Prints a line for each with what became of it, and ends with 0 where
# all were refused. It works on a copy, and takes some 30 seconds for each.
set -u
cd "$(dirname "$0")/.." || exit 1
names=("$@")
if [ ${#names[@]} -eq 0 ]; then
  for folder in crates/*/wrong; do
    names+=("$(basename "$(dirname "$folder")")")
  done
fi
copy=$(mktemp -d) || exit 1
trap 'rm -rf "$copy"' EXIT
git ls-files -z -- crates crates.txt HANDLES | xargs -0 cp --parents -t "$copy"
cd "$copy" || exit 1
git init -q .
status=0
for name in "${names[@]}"; do
  rm -rf "crates/$name/must-fail"
  mv "crates/$name/wrong" "crates/$name/must-fail" || exit 1
  tried=$(ls "crates/$name/must-fail" | wc -l)
  log="$copy/$name.log"
  rt must-fail "$name" >"$log" 2>&1 || status=1
  grep -E '\.edit|must-fail' "$log" | sed "s/^/$name: /"
  echo "$name: $tried tried"
done
exit $status
