# Sourced by mmdetect, run_tests and the commands of this folder: what the program and the C library are made from, and whether those that
# stand are of that. The variable top is the folder that has crates.txt.

program=$top/crates/mm_detect/out/mm_detect
library=$top/crates/pashkure/out/libpashkure.a
server=${program%/*}/pashkure-serve
# What each was made from stands beside it, in FILE.sources: a line with the digest of the sources and that of the file, and a line with the
# toolchain.

# made_of CRATE: the file that is made of it
made_of() {
  case $1 in
    mm_detect) echo "$program" ;;
    pashkure) echo "$library" ;;
  esac
}

# lines_of CRATE..: the lines of crates.txt for these crates and for those that they rest on, each after all that it rests on
lines_of() {
  awk -v wanted="$*" '
    function visit(crate,  names, count, i) {
      if (!(crate in line) || crate in seen) return
      seen[crate] = 1
      count = split(below[crate], names, " ")
      for (i = 1; i <= count; i++) visit(names[i])
      print line[crate]
    }
    { sub(/[ \t]*#.*/, "") }
    /:/ { split($0, halves, ":"); split(halves[1], words, " "); line[words[1]] = $0; below[words[1]] = halves[2] }
    END { count = split(wanted, all, " "); for (i = 1; i <= count; i++) visit(all[i]) }' "$top/crates.txt"
}

# crates_of CRATE..: the names of these crates
crates_of() {
  lines_of "$@" | sed 's/[: ].*//'
}

# sources_of CRATE: a digest of all that the build of this crate reads, with its names
sources_of() {
  (
    cd "$top" || exit
    mapfile -t folders < <(crates_of "$1" | sed 's|^|crates/|')
    {
      lines_of "$1"
      find "${folders[@]}" \( -name out -o -name must-fail \) -prune -o -type f \( -name '*.rt' -o -name '*.antt' \) -print0 |
        LC_ALL=C sort -z | xargs -0 sha256sum
    } | sha256sum | cut -d ' ' -f 1
  )
}

# toolchain: what `rt version` prints, from the file that it prints if that is found
toolchain() {
  local rt
  rt=$(readlink -f "$(command -v rt)")
  cat "${rt%/bin/*}/KIT-ID" 2> /dev/null || rt version
}

digest_of() {
  sha256sum "$1" | cut -d ' ' -f 1
}

# keeps CRATE SOURCES: what stands now of this crate was made from the sources of this digest
keeps() {
  local made
  made=$(made_of "$1")
  printf '%s %s\n%s\n' "$2" "$(digest_of "$made")" "$(toolchain)" > "$made.sources.new" && mv "$made.sources.new" "$made.sources"
}

# is_built CRATE: what stands of it is that of the sources, and of the toolchain if there is one
is_built() {
  local made sources own made_by
  made=$(made_of "$1")
  [ -r "$made" ] && [ -r "$made.sources" ] || return 1
  { read -r sources own && read -r made_by; } < "$made.sources" || return 1
  [ "$sources" = "$(sources_of "$1")" ] && [ "$own" = "$(digest_of "$made")" ] || return 1
  ! command -v rt > /dev/null || [ "$made_by" = "$(toolchain)" ]
}

# builds_library FOLDER: makes out/libpashkure.a in this checkout, whose crates `rt ci` has proved there: it proves the crate once more, over the
# libraries that stand, since `rt ci` keeps no static library. Beside it is out/liblibc_c.a, by which it takes memory from C.
builds_library() {
  local kit name words=()
  kit=$(readlink -f "$(command -v rt)")
  kit=${kit%/bin/*}
  for name in $(top=$1 crates_of pashkure); do
    [ "$name" = pashkure ] || words+=(-L "dependency=$1/crates/$name/out/rlib")
  done
  for name in std $(top=$1 lines_of pashkure | sed -n 's/^pashkure staticlib: *//p'); do
    if [ -d "$1/crates/$name" ]; then
      words+=(--extern "$name=$1/crates/$name/out/rlib/$name.rlib")
    else
      words+=(--extern "$name=$kit/rlibs/$name.rlib")
    fi
  done
  (
    mkdir -p "$1/crates/pashkure/out" && cd "$1/crates/pashkure" &&
      "$kit/bin/rattle" build --crate-name pashkure src/lib.rt "${words[@]}" -L "dependency=$kit/rlibs" --jobs 2 --links pashkure= \
        --antt-project "$kit/rattle/logic/antt-project.json" --logic-built "$kit/logic_built" --toolchain "$kit/toolchain" \
        --backend llvm --crate-type staticlib -o out/libpashkure.a && cp "$kit/c/liblibc_c.a" out
  )
}
