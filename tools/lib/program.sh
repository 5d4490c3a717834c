# Finds the program of this checkout: the released one where it was built from the sources as they are, or else one that
# is built here. bin/scott and tools/program read this file and call find_program. No program is run that was built from
# other sources than those that stand here.
#
# To compare the sources with the release they are all read. What was found is then noted in a stamp, and a later call
# takes it from there as long as nothing that it depends on has changed since. Stamps, a lock and the programs that were
# built here are kept in release/out/, which git ignores; where that can't be written, stamps are kept for the user.

say() { echo "bin/scott: $*" >&2; }

# Where stamps are kept: paths from the checkout's top, or whole ones.
own_stamp=release/out/stamp

# The stamp of a checkout that can't be written, empty where the user has no folder for it.
user_stamp() {
  local base=${XDG_CACHE_HOME:-${HOME:+$HOME/.cache}} whole
  whole=$(CDPATH='' cd "$top" && pwd -P)
  if [ -n "$base" ]; then echo "$base/scott/${whole//\//%}/stamp"; fi
}

# Goes to the top and prints which folder crates/ is on which machine, and then the first file or folder that changed since
# the stamp's time. What counts is when the file itself was changed or put in its place (ctime), which no copying and no
# `touch` sets back; a file that was added or removed has changed its folder.
look() {
  CDPATH='' cd "$top" && LC_ALL=C exec find crates crates.txt HANDLES release/scott release/BUILT_FROM release/out/scott-* \
    -samefile crates -printf "$HOSTNAME %D:%i\n" , \
    -type d -name out -path 'crates/*/out' ! -path 'crates/*/*/out' -prune -o -cnewer "$1" -print -quit 2>/dev/null
}

# Sets `program` by this stamp, if it still holds.
by_stamp() {
  local file=$1 folder path
  case $file in /*) ;; *) file=$top/$file ;; esac
  [ -f "$file" ] && { IFS= read -r folder && IFS= read -r path; } <"$file" || return 1
  [ -x "$top/$path" ] && [ "$(look "$1")" = "$folder" ] || return 1
  program=$top/$path
}

# Sets `program`, and notes it in a stamp. The stamp's time is two seconds before the sources were read: what changed
# while they were read, or within the clock's grain, is looked at again.
found() {
  local stamp new folder
  program=$top/$1
  folder=$(CDPATH='' cd "$top" && find crates -maxdepth 0 -printf "$HOSTNAME %D:%i\n") || return 0
  for stamp in "$top/$own_stamp" "$(user_stamp)"; do
    if [ -n "$stamp" ] && mkdir -p "${stamp%/*}" 2>/dev/null && new=$(mktemp "$stamp.XXXXXX" 2>/dev/null); then
      printf '%s\n%s\n' "$folder" "$1" >"$new" && touch -d "@$((began - 2))" "$new" && mv -f "$new" "$stamp" && return 0
      rm -f "$new"
    fi
  done
  return 0
}

# Prints why the released program can't be run for sources of this checksum; nothing where it can.
unfit() {
  local release=$top/release name value sources= sum= found_sum
  if [ ! -f "$release/scott" ] || [ ! -f "$release/BUILT_FROM" ]; then
    echo "there is no released program"
    return
  fi
  while read -r name value; do
    case $name in sources) sources=$value ;; program) sum=$value ;; esac
  done <"$release/BUILT_FROM"
  found_sum=$(sha256sum <"$release/scott")
  if [ "$sources" != "$1" ]; then
    echo "release/scott was built from other sources than these"
  elif [ "$sum" != "${found_sum%% *}" ]; then
    echo "release/scott isn't the file that release/BUILT_FROM names"
  elif [ ! -x "$release/scott" ]; then
    echo "release/scott isn't executable"
  elif [ "$(answer_to_no_word "$release/scott")" != "4 words refused" ]; then
    echo "release/scott doesn't run on this machine (it is for x86-64 Linux with glibc 2.34 or later)"
  fi
}

# Prints a program's status and answer where it is given no word: a command that every version refuses.
answer_to_no_word() {
  local said
  said=$("$1" </dev/null 2>/dev/null)
  echo "$? $said"
}

# Has `rt` prove and build the program of sources of this checksum, and keeps it under that name if they are still the same.
build() {
  local sum=$1 kept=$top/release/out made=$top/crates/scott/out/scott said
  (
    flock 9 2>/dev/null
    if [ -x "$kept/scott-$sum" ]; then exit 0; fi
    say "$why. Proving and building here, which takes up to an hour the first time"
    # the word '' is one that the program refuses: its answer tells that there is a program, built or still current
    said=$(CDPATH='' cd "$top/crates/scott" && rt run -- '' </dev/null 9>&-)
    if [ "${said##*$'\n'}" != "words refused" ] || [ ! -x "$made" ]; then
      say "nothing was built"
      exit 1
    fi
    if [ "$("$top/tools/checksum")" != "$sum" ]; then
      say "the sources changed while they were proved"
      exit 0
    fi
    rm -f "$kept"/scott-*
    cp "$made" "$kept/new.$$" && chmod 755 "$kept/new.$$" && mv -f "$kept/new.$$" "$kept/scott-$sum"
  ) 9>>"$kept/lock"
}

# Sets `program` after reading all sources, and builds it first where it must be.
by_sources() {
  local sum why began
  for _ in 1 2 3; do
    began=$(date +%s)
    sum=$("$top/tools/checksum") || return 1
    why=$(unfit "$sum")
    if [ -z "$why" ]; then
      found release/scott
      return 0
    fi
    if [ -x "$top/release/out/scott-$sum" ]; then
      found "release/out/scott-$sum"
      return 0
    fi
    if ! command -v rt >/dev/null; then
      say "$why, and \`rt\` isn't on the path to build it"
      return 1
    fi
    if ! mkdir -p "$top/release/out" 2>/dev/null || [ ! -w "$top/release/out" ]; then
      say "$why, and it can't be built here, since release/out can't be written"
      return 1
    fi
    build "$sum" || return 1
  done
  say "the sources change faster than they can be proved"
  return 1
}

# Sets `program` to the path of the program of the checkout at $1, or fails and has said why.
find_program() {
  top=$1
  by_stamp "$own_stamp" || by_stamp "$(user_stamp)" || by_sources
}
