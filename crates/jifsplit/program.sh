# Where the proved programs are built, and whether they are newer than all sources. `top` is the folder of the repository.
program=$top/crates/jifsplit/out/jifsplit
node=$top/crates/jifhost/out/jifhost
tokens=$top/crates/jiftokens/out/jiftokens
picture=$top/crates/jifpicture/out/jifpicture
runner=$top/crates/jifrun/out/jifrun
merged=$top/crates/jifmerge/out/jifmerge
fields=$top/crates/jiffields/out/jiffields
explained=$top/crates/jifexplain/out/jifexplain
unchanged=''

# A program is newer than all sources. To look at each of them takes far longer than a small answer, so a stamp beside
# the program keeps when that was last so. Where the index of git is older than the stamp, and git finds each source as
# its index has it, then none has changed since. A source that git does not know yet is named by one that it knows.
is_built() {
  [ -x "$1" ] || return 1
  if [ "$1.newest" -nt "$1" ] && [ "$1.newest" -nt "$top/.git/index" ] && is_unchanged; then
    return 0
  fi
  touch "$1.looking" 2>/dev/null
  if [ -n "$(find "$top/crates" "$top/crates.txt" -name out -prune -o -type f \
    \( -name '*.rt' -o -name '*.antt' -o -name crates.txt \) -newer "$1" -print -quit)" ]; then
    rm -f "$1.looking" "$1.newest"
    return 1
  fi
  mv "$1.looking" "$1.newest" 2>/dev/null
  return 0
}

# git, which is asked once, finds each source as its index has it
is_unchanged() {
  if [ -z "$unchanged" ]; then
    unchanged=no
    [ -f "$top/.git/index" ] && GIT_INDEX_FILE=.git/index git -C "$top" --git-dir=.git --work-tree=. \
      -c core.preloadIndex=false diff-files --quiet -- 'crates/*.rt' 'crates/*.antt' crates.txt 2>/dev/null && unchanged=yes
  fi
  [ "$unchanged" = yes ]
}

# `jifrun` starts the node that stands beside it: a copy, since `rt ci` takes no link there
lay_node() {
  local beside
  beside=$(dirname "$runner")/jifhost
  [ "$beside" -nt "$node" ] || cp "$node" "$beside"
}

is_current() {
  is_built "$program"
}

# Builds a program by a run with these words, unless it is built, and says on standard error how far it is. What the
# build prints is kept in a file, which is shown where no program comes of it.
build() {
  local built=$1 crate=$2 log
  shift 2
  is_built "$built" && return
  if ! command -v rt >/dev/null; then
    echo "$crate: it is not built, and to build it rt has to be on the path, the command of the Rattle kit" >&2
    return 1
  fi
  log=$(mktemp) || return 1
  echo "$crate: it is built now: some minutes for jiftokens, and from nothing up to an hour for all on four processors" >&2
  (cd "$top/crates/$crate" && rt run -- "$@") 2>&1 | tee "$log" | said_so_far "$crate" "$(count_below "$crate")"
  if is_built "$built"; then
    rm -f "$log"
    echo "$crate: built" >&2
    return
  fi
  cat "$log" >&2
  rm -f "$log"
  echo "$crate: it does not build" >&2
  return 1
}

# how many crates a crate stands on, and itself
count_below() {
  awk -F: -v top="$1" '
    function walk(name, names, count, at) {
      if (name in seen || !(name in below)) return
      seen[name]; found++
      count = split(below[name], names, " ")
      for (at = 1; at <= count; at++) walk(names[at])
    }
    /^[a-z]/ { below[$1] = $2 }
    END { walk(top); print found }' "$top/crates.txt"
}

# says which crate a build is at, how many there are at most, and on a terminal how many of its functions are checked
said_so_far() {
  local line at=0
  while IFS= read -r line; do
    case $line in
      'rt: chose --jobs '*)
        at=$((at + 1))
        line="${line##* for }, crate $at of $2 at most, after $((SECONDS / 60)) min $((SECONDS % 60)) s"
        ;;
      'so far: '*) [ -t 2 ] && line="  ${line#so far: }" || continue ;;
      *) continue ;;
    esac
    printf '%s: %s\n' "$1" "$line" >&2
  done
}

# Builds all programs, and lays the node beside the program that starts it.
build_all() {
  build "$tokens" jiftokens data/program.jif || return 1
  build "$program" jifsplit replay data/program.jif data/hosts.toml data/events.txt || return 1
  build "$node" jifhost || return 1
  build "$picture" jifpicture data/program.jif data/hosts.toml || return 1
  build "$runner" jifrun || return 1
  lay_node
  build "$merged" jifmerge data/program.jif data/hosts.toml data/start.txt data/A.journal data/B.journal || return 1
  build "$fields" jiffields || return 1
  build "$explained" jifexplain data/program.jif data/hosts.toml
}
