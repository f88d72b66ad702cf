# To be sourced. kit_trouble ROOT prints, in one line, why the repository at ROOT cannot be proved here; or nothing, where it can.
kit_trouble() {
  pinned=$(cat "$1/kit.txt")
  if ! command -v rt >/dev/null 2>&1; then
    echo "the Rattle kit's command rt is not on PATH; this project is proved with the kit '$pinned' (README.md)"
  elif [ -z "${Z33_ANY_KIT:-}" ] && [ "$(rt version)" != "$pinned" ]; then
    echo "rt on PATH is the kit '$(rt version)', and this project is proved with '$pinned' (kit.txt); Z33_ANY_KIT=1 tries it all the same"
  fi
}

# kit_library ROOT proves and builds the static library, and puts it into ROOT/target/staticlib as libz33.a. The crate z33_c has its exports.
kit_library() {
  (cd "$1/crates/z33_c" && rt lib) && mkdir -p "$1/target/staticlib" && cp "$1/crates/z33_c/out/libz33_c.a" "$1/target/staticlib/libz33.a"
}

# kit_program ROOT PROGRAM proves and builds the program, and puts it into ROOT/target/bin. rt also runs what it builds: on nothing, once, and what
# comes of that is of no account.
kit_program() {
  rm -f "$1/crates/$2/out/$2"
  (cd "$1/crates/$2" && rt run < /dev/null > /dev/null)
  [ -x "$1/crates/$2/out/$2" ] && mkdir -p "$1/target/bin" && cp "$1/crates/$2/out/$2" "$1/target/bin/$2"
}
