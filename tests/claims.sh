#!/usr/bin/env bash
# Each row of the tables in docs/CLAIMS.md names what carries it, as `file#name`, or says `open: ...`; each name must stand in its file,
# and that of `file#!name` must not.
set -euo pipefail
cd "$(dirname "$0")/.."
table=docs/CLAIMS.md
bad=0 rows=0 names=0
while IFS= read -r row; do
  case "$row" in '| '*) ;; *) continue ;; esac
  case "$row" in '| Claim '*|'|---'*|'| ---'*) continue ;; esac
  rows=$((rows + 1))
  carriers=$(grep -o '`[^`]*#[^`]*`' <<<"$row" | tr -d '`' || true)
  if [ -z "$carriers" ] && ! grep -q 'open: ' <<<"$row"; then
    echo "claims: no carrier and not open: $row"
    bad=1
  fi
  while IFS= read -r carrier; do
    [ -n "$carrier" ] || continue
    names=$((names + 1))
    file=${carrier%%#*} name=${carrier#*#} wanted=1
    case "$name" in '!'*) name=${name#!} wanted=0 ;; esac
    if [ ! -f "$file" ]; then
      echo "claims: no file $file"
      bad=1
      continue
    fi
    found=1
    grep -qE "(^|[^[:alnum:]_·′-])$(sed 's/[.[\*^$()+?{|]/\\&/g' <<<"$name")([^[:alnum:]_·′-]|$)" "$file" || { [ $? -eq 1 ] && found=0; }
    if [ "$found" -ne "$wanted" ]; then
      echo "claims: $file $([ "$wanted" -eq 1 ] && echo "does not have" || echo "has") $name"
      bad=1
    fi
  done <<<"$carriers"
done <"$table"
[ "$rows" -gt 0 ] || { echo "claims: no rows"; bad=1; }
[ "$bad" -eq 0 ] || exit 1
echo "claims: $rows rows, $names names, all as claimed"
