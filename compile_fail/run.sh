#!/usr/bin/env bash
# Code that must not compile: each case here is made a crate of a copy of the repository, and the check must refuse it with the
# error that the case names, and with no other. Not part of the gate, which knows no such cases. Needs no argument.
cd "$(dirname "$0")/.." || exit 1
work=$(mktemp -d) || exit 1
trap 'rm -rf "$work"' EXIT
tar -c --exclude=out crates crates.txt | tar -x -C "$work" || exit 1
mkdir -p "$work/crates/refused_case/src"
cp crates.txt "$work/crates.base"
failed=0
for case in compile_fail/*.txt; do
  name=$(basename "$case" .txt)
  crates=$(sed -n 's|^//! crates: ||p' "$case")
  code=$(sed -n 's|^//! error: ||p' "$case")
  cp "$case" "$work/crates/refused_case/src/lib.rt"
  { cat "$work/crates.base"; echo "refused_case: $crates"; } > "$work/crates.txt"
  said=$(cd "$work/crates/refused_case" && rt check 2>&1)
  errors=$(printf '%s\n' "$said" | grep -oE 'src/lib\.rt:[0-9:]+ error\[[a-z-]+\]' | grep -oE '\[[a-z-]+\]' | sort -u)
  if [ "$errors" = "[$code]" ]; then
    echo "$name: refused, $code"
  else
    echo "$name: NOT refused as it must be ($code): ${errors:-no such error}"
    failed=1
  fi
done
exit $failed
