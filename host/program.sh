# To be sourced by a command at the top, which has set here (this repository), tool (its own name), program (a crate) and name (what the program is called). The
# program is proved and built first where that was not yet done from these sources; then $binary is it. Standard output has the program's bytes and nothing
# else; how it went is told from what was printed, and a status other than 0 is a fault.

say() { printf '%s: %s\n' "$tool" "$*" >&2; }
end() { say "$*"; exit 2; }
# A reader that is gone is output that cannot be written.
print() { trap '' PIPE; printf '%s\n' "$*" 2>/dev/null || end "standard output cannot be written"; }

binary=$here/target/bin/$program
built=$here/target/bin/$program.b2sum

# The program and what it was built from are, by their content, those of the last build. A new file counts when one of these names it.
fresh() {
  [ -z "${Z33_ANY_KIT:-}" ] && [ -x "$binary" ] && (cd "$here" && exec b2sum --check --status --strict "target/bin/$program.b2sum" 2>/dev/null)
}

# The crates that the program is made of, itself included.
crates() {
  awk -F: 'function visit(c, d, i, n) { if (!(c in needs) || seen[c]++) return; n = split(needs[c], d, " "); for (i = 1; i <= n; i++) visit(d[i]); print c }
    { needs[$1] = $2 } END { visit(program) }' program="$program" "$here/crates.txt"
}

# The hashes of what the program is built from and of what is proved of it: the kit's name, code and definitions. Proofs are not among
# them: what was proved once stays proved.
sources() {
  crates | sed 's|.*|crates/&/src crates/&/specs|' | (cd "$here" && xargs sh -c 'find kit.txt crates.txt "$@" -type f -exec b2sum {} + 2>/dev/null' sh)
}

# Reads what rt says, and shows a line a crate with how many are left; where rt fails, all of it. A crate's verdict ends what rt says of it.
progress() {
  left=$1 said= at=
  while IFS= read -r line; do
    case $line in
      'rt: chose '*' for '*) at=${line##* } ;;
      'logic=proved '*) left=$((left - 1)) && say "$at proved, $left left" ;;
      'rt ended 0') return 0 ;;
    esac
    said="$said$line
"
  done
  printf '%s' "$said" >&2
  return 1
}

build() {
  mkdir -p "$here/target/bin" 2>/dev/null
  [ -w "$here/target/bin" ] || end "$name is not built from these sources yet, and $here/target cannot be written"
  . "$here/host/kit.sh"
  trouble=$(kit_trouble "$here")
  [ -z "$trouble" ] || end "$name is not built from these sources yet: $trouble"
  count=$(crates | wc -l)
  say "$name is proved and built from these sources first, $count crates; from nothing that takes some minutes"
  . "$here/host/scratch.sh"
  trap 'rm -rf ${scratch:+"$scratch"}' EXIT
  trap 'exit 2' HUP INT TERM
  before=$(sources)
  rm -f "$built"
  { kit_program "$here" "$program" 2>&1; echo "rt ended $?"; } | progress "$count" || end "$name could not be built"
  [ "$(sources)" = "$before" ] || end "the sources changed while $name was built: start again"
  # What another kit built is never taken for fresh.
  if [ -z "${Z33_ANY_KIT:-}" ]; then
    (cd "$here" && { printf '%s\n' "$before"; b2sum "target/bin/$program"; } > "target/bin/$program.new" && mv "target/bin/$program.new" "target/bin/$program.b2sum")
  fi
}

made() {
  if ! fresh; then
    # One start builds, and the others wait for it.
    exec 9< "$here" || exit 2
    flock -n 9 || { say "waiting for another start, or ./test, that is building here"; flock 9; }
    fresh || build
    exec 9<&-
  fi
}
