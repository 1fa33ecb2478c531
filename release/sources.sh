# What fsemu is built from, for the scripts that ask whether a program is of these sources. `top` is the repository.

# Whether a program, or what was found out about one, is there and no source is newer. Contracts are proved of the sources, and
# proofs and definitions change no program: so these aren't looked at. Each run asks this first, so it is asked by one other program.
is_newest() {
  [ -e "$1" ] && [ -z "$(find "$top/crates.txt" "$top"/crates/*/src -newer "$1" -print -quit)" ]
}

# The lines of crates.txt that fsemu is made of: itself last.
lines_of_fsemu() {
  sed -n '/^fs[a-z_]*:/p; /^fsemu:/q' "$top/crates.txt"
}

# One sum of all sources: of their names, of what is in them, and of what each crate stands on.
sum_of_sources() {
  (
    cd "$top" || exit 1
    {
      lines_of_fsemu
      lines_of_fsemu | sed 's/:.*//; s/.*/crates\/&\/src/' | xargs -I{} find {} -type f -print0 | LC_ALL=C sort -z | xargs -0 sha256sum
    } | sha256sum | cut -d' ' -f1
  )
}
