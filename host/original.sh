# To be sourced with `here` (this folder) and `called_from` set.
files="constants.rs runtime/arguments.rs runtime/exception.rs runtime/instructions.rs
    runtime/io.rs runtime/memory.rs runtime/mod.rs runtime/registers.rs"

# The folder with the Rust original's eight files, or nothing.
original() {
    local root=$here/../../shared/docs/src folder file
    if [ -n "${Z33_RUST_SRC:-}" ]; then root=$(cd "$called_from" && realpath -m "$Z33_RUST_SRC"); fi
    for folder in "$root" "$root/crates/emulator/src"; do
        for file in $files; do [ -f "$folder/$file" ] || continue 2; done
        realpath "$folder"
        return
    done
}
