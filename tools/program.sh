# What the scripts that run a program of this checkout share: to prove and build both programs once, in one go, and to print how one is
# used. A script sets `root`, the top of the checkout; `called`, its own name; `crate`, its program's crate; and `usage_file`, the source that
# has the text for --help; and then reads this file.
programs="plansys shows"
program="$root/out/$crate"
log="$root/out/build.log"
estimate="some forty minutes on four processors, two hours of processor time"

say() { echo "$called: $1" >&2; }

# The text that the program has for --help, cut out of its source; nothing where it doesn't stand there as it is printed.
usage() {
  awk '
    /^";$/ && on { exit }
    on && /\\/ { text = ""; exit }
    on { text = text $0 "\n" }
    /^pub const USAGE: &str = "\\$/ { on = 1 }
    END { printf "%s", text }' "$usage_file"
}

# The lines of crates.txt of the crates that the programs stand on, and their own.
needed() {
  awk -v tops="$programs" '
    /^[a-z]/ { at = index($0, ":"); split($0, words, /[ :]/); line[words[1]] = $0; below[words[1]] = substr($0, at + 1) }
    END {
      count = split(tops, list, " ")
      for (i = 1; i <= count; i++) seen[list[i]] = 1
      for (i = 1; i <= count; i++) {
        print line[list[i]]
        n = split(below[list[i]], found, " ")
        for (j = 1; j <= n; j++) if (found[j] in line && !(found[j] in seen)) { seen[found[j]] = 1; list[++count] = found[j] }
      }
    }' "$root/crates.txt"
}

# The names of these crates, without the programs.
libraries() { needed | cut -d: -f1 | cut -d' ' -f1 | grep -vxF "$(printf '%s\n' $programs)"; }

# The folders of crates that a proof or a program is made from, from the top of the checkout.
sources() {
  local name part
  for name in "$@"; do
    for part in src specs proofs; do
      [ -d "$root/crates/$name/$part" ] && echo "crates/$name/$part"
    done
  done
}

# A folder is newer too, once a file in it was added or removed. Both programs are as old as the copy of their sources.
is_fresh() {
  local name
  for name in $programs; do
    [ -x "$root/out/$name" ] || return 1
  done
  (cd "$root" && [ -z "$(find $(sources $(libraries) $programs) crates.txt HANDLES -newer "$program" -print -quit)" ])
}

# Copies the sources of crates into a folder.
copy_to() {
  local to="$1" part
  shift
  for part in $(sources "$@"); do
    mkdir -p "$to/${part%/*}" && cp -r "$root/$part" "$to/${part%/*}/" || return 1
  done
}

# Proves and builds a program in a folder where its libraries are proved. That it was built shows in its file; with which words it is run
# there counts for nothing.
build_program() {
  (cd "$1/crates/$2" && rt run -- --version) && cp "$1/crates/$2/out/$2" "$root/out/$2.new" && touch -r "$1/begun" "$root/out/$2.new"
}

# Proves and builds in this folder, where rt sees just the crates that are needed. The programs come after their libraries, one after the other,
# since each takes 7 GB of memory, for 5 to 7 minutes of processor time: what builds one proves it too, so that an earlier check of it would only
# be done twice. Their libraries have to be there before: else rt reads the sources of all of them at once first, which takes over 13 GB.
build_in() {
  local name
  touch "$1/begun" && needed | grep -vE "^(${programs// /|}):" >"$1/crates.txt" && cp "$root/HANDLES" "$1/" || return 1
  copy_to "$1" $(libraries) && (cd "$1" && rt all check --jobs "$(nproc)") || return 1
  needed >"$1/crates.txt" && copy_to "$1" $programs || return 1
  for name in $programs; do
    build_program "$1" "$name" || return 1
  done
  for name in $programs; do
    mv "$root/out/$name.new" "$root/out/$name" || return 1
  done
}

build() {
  local room status
  room="$(mktemp -d)" || return 1
  trap 'rm -rf "$room"; exit 125' INT TERM HUP
  build_in "$room" >"$log" 2>&1 </dev/null
  status=$?
  rm -rf "$room"
  trap - INT TERM HUP
  return "$status"
}

# Makes sure that the programs are there and no older than their sources.
prepare() {
  is_fresh && return
  if ! command -v rt >/dev/null; then
    say "it isn't built yet, or a source is newer; for that it needs the Rattle kit, whose command is rt, on the path (README.md, 'Set up')"
    return 1
  fi
  mkdir -p "$root/out" && exec 9>"$root/out/lock" || return 1
  if ! flock -n 9; then
    say "another call is building it; this one waits ($log says how far it is)"
    flock 9
  fi
  if ! is_fresh; then
    say "proving and building it once: $estimate ($log says how far it is)"
    if ! build; then
      tail -n 20 "$log" >&2
      say "the build failed; $log has all that was said"
      return 1
    fi
  fi
  exec 9>&-
}

# Answers with the program's text: no word at all is a faulty command line.
answer_help() {
  local text
  text="$(usage)"
  if [ -z "$text" ]; then return; fi
  if [ $# -eq 0 ]; then
    echo "$text" >&2
    exit 2
  fi
  echo "$text"
  exit 0
}

# Answers what asks for help before anything is built, and else runs the program with these words after what it is asked to do.
run_program() {
  local does="$1"
  shift
  case "$#:${1-}" in
    0:* | 1:--help | 1:-h | 1:help) answer_help "$@" ;;
  esac
  prepare || exit 125
  exec "$program" $does "$@"
}
