# shellcheck shell=sh
# How the launcher finds the program, unpacks the release, and builds: functions that it reads in. They take its variables, whose names begin there.
# shellcheck disable=SC2034,SC2154

# Finds the program without a build, in `found`; or in `lacking` why there is none.
find_program() {
  if [ -n "$is_package" ]; then
    found=$top/libexec/factoplan/factoplan
    fits || return 1
    lacking="this package has no program: $found is not there"
    [ -x "$found" ]
    return
  fi
  find_cache
  note=$cache/starts$top/program
  is_noted && return
  sum=
  find_passing
  own=$top/crates/factoplan/out/factoplan
  begin_note 2>/dev/null
  if is_built || find_built || find_release; then
    end_note
    return 0
  fi
  drop_note
  if [ -x "$own" ]; then built='was built here of older sources'; else built='is not built here'; fi
  lacking="factoplan $built, and $lacking"
  return 1
}

# --- folders -----------------------------------------------------------------------------------------------------------------

# Finds the folder for what is unpacked, built or noted, in `cache`: that of the user, or where there is no home the one in `passing`.
find_cache() {
  home=${HOME:-/}
  [ "$home" != / ] || home=$(have getent && getent passwd "$(id -u)" | cut -d: -f6)
  cache=${XDG_CACHE_HOME:-${home:+${home%/}/.cache}}
  case $cache in
    '' | /.cache) find_passing && cache=$passing ;;
    *) cache=$cache/factoplan ;;
  esac
}

# Finds the folder among the temporary files, for where the other can't be written, in `passing`.
find_passing() { passing=${TMPDIR:-/tmp}/factoplan-$(id -u); }

# Whether a folder is there, can be written, and is this user's own where it is among the temporary files; it is made if need be.
can_keep() {
  if [ "$1" = "$passing" ]; then
    mkdir -m 700 "$1"
    # (-O is no part of POSIX, and of every shell)
    # shellcheck disable=SC3067
    [ -O "$1" ] && [ ! -L "$1" ] && [ -w "$1" ]
  else
    mkdir -p "$1" && [ -w "$1" ]
  fi
} 2>/dev/null

# --- the note of an earlier start --------------------------------------------------------------------------------------------

# Whether the program of an earlier start still does, in `found`: since it was noted neither it nor what it is built from and what is promised of it was
# changed, by the time that only the system sets. Proofs needn't be looked at: other ones would prove the same of the same program.
# (A `find` that doesn't know -printf or -cnewer doesn't tell: then the program is looked for at each start.)
is_noted() {
  # (-O is no part of POSIX, and of every shell)
  # shellcheck disable=SC3067
  [ -f "$note" ] && [ -O "$cache" ] && [ -O "$note" ] || return 1
  { read -r place && read -r found; } <"$note" && [ -x "$found" ] && [ "$place" = "$(changes 2>/dev/null)" ] || return 1
  case $found in
    "$top"/* | */built-*/factoplan) ;;
    *) fits ;;
  esac
}

# What the system calls the checkout, and then what was changed since the note.
changes() {
  cd "$top" && find . crates.txt tools/kit.txt crates/*/src crates/*/specs crates/factoplan/out/factoplan "$found" \
    -path . -prune -printf '%D-%i\n' -o -cnewer "$note" -print
}

# Begins a note, which is of the moment before the program is looked for; in `began`, or nothing where none can be kept.
begin_note() {
  began=
  can_keep "$cache" && mkdir -p "${note%/*}" && have touch && began=$(mktemp "${note%/*}/new-XXXXXX")
}

end_note() {
  [ -n "$began" ] || return 0
  { (cd "$top" && find . -prune -printf '%D-%i\n') && echo "$found"; } >"$began.new" &&
    touch -r "$began" "$began.new" && mv -f "$began.new" "$note"
  drop_note
} 2>/dev/null

drop_note() { [ -z "$began" ] || rm -f "$began" "$began.new"; }

# --- what was built ----------------------------------------------------------------------------------------------------------

# Whether the program that was built in this tree is as new as its sources.
is_built() {
  [ -x "$own" ] || return 1
  # (names of crates are letters, digits and _)
  # shellcheck disable=SC2046
  newer=$(cd "$top" && find crates.txt $(sh tools/sum --folders) -newer "$own" -type f \
    \( -name '*.rt' -o -name '*.antt' -o -name crates.txt \) -print | head -n 1)
  found=$own
  [ -z "$newer" ]
}

# Whether a program was built of these sources where the tree couldn't be written.
find_built() {
  need_sum || return 1
  for folder in "$cache" "$passing"; do
    found=$folder/built-$sum/factoplan
    [ ! -x "$found" ] || return 0
  done
  return 1
}

# The sum of the sources, in `sum`.
need_sum() {
  [ -n "$sum" ] || { have sha256sum && sum=$(sh "$top/tools/sum"); }
}

# Proves and builds the program, in this tree or, where that can't be written, in the cache; or else ends.
build() {
  need_kit 'proving and building needs'
  [ -z "$lacking" ] || say "$lacking"
  find_cache
  find_passing
  can_keep "$cache" || cache=$passing
  sum=
  need_sum
  python3 "$top/tools/build" ${asks_anew:+"$asks_anew"} --or-to "$cache/built-$sum" || exit 2
  rm -f "$cache/starts$top/program"
  find_program || gives_up "$lacking"
}

# Ends where there is no toolchain.
need_kit() {
  kit=$(cut -d' ' -f1 "$top/tools/kit.txt")
  have rt || gives_up "${lacking:+$lacking; }$1 the Rattle toolchain: the command rt ($kit) on the PATH"
  have python3 || gives_up "${lacking:+$lacking; }$1 Python 3.8 or later"
}

# Runs without any proof.
quick() {
  [ -z "$is_package" ] || gives_up 'this is a package, which has no sources: --quick is for a checkout'
  need_kit '--quick needs'
  start tools/quick "$@"
}

# --- the release -------------------------------------------------------------------------------------------------------------

# Whether the system is one for which a release is made; or in `lacking` why not.
fits() {
  if [ ! -e /lib64/ld-linux-x86-64.so.2 ]; then
    lacking="the release needs glibc $glibc or later, and this system has none"
    [ "$(uname -sm)" = 'Linux x86_64' ] || lacking="the release is for Linux on x86-64, and this is $(uname -sm)"
    return 1
  fi
  libc=$(getconf GNU_LIBC_VERSION 2>/dev/null)
  libc=${libc#glibc }
  minor=${libc#2.}
  # (where the version isn't told, the program is tried)
  case $libc in
    2.*) [ "${minor%%.*}" -lt "${glibc#2.}" ] || return 0 ;;
    *) return 0 ;;
  esac
  lacking="the release needs glibc $glibc or later, and this system has $libc"
  return 1
}

# Finds the program of the release, if it was built from the sources of this tree; or in `lacking` why not.
find_release() {
  sources=$top/release/SOURCES
  lacking='there is no release in this tree'
  [ -f "$sources" ] || return 1
  lacking='looking at the release needs the command sha256sum'
  need_sum || return 1
  wanted=$(sed -n 's/^sources //p' "$sources")
  lacking="the release here was built of other sources: the sum of its sources is $(short "$wanted"), that of this tree $(short "$sum")"
  [ "$wanted" = "$sum" ] && fits || return 1
  read -r total archive <"$top/release/SHA256SUMS"
  for folder in "$cache" "$passing"; do
    found=$folder/$total/factoplan
    is_whole && return 0
  done
  unpack_release
}

short() { printf '%.12s' "${1:-none}"; }

# Whether the program that was unpacked is the one of the release.
is_whole() {
  [ -x "$found" ] && [ "program factoplan $(sha256sum <"$found" | cut -d' ' -f1)" = "$(sed -n '/^program factoplan /p' "$sources")" ]
}

# Unpacks the release and puts its program into the cache, whole or not at all.
unpack_release() {
  lacking="release/$archive is damaged: its sum is not that of release/SHA256SUMS (git checkout release brings it back)"
  [ "$(sha256sum <"$top/release/$archive" | cut -d' ' -f1)" = "$total" ] || return 1
  lacking="the release can't be unpacked: neither $cache nor $passing can be written (XDG_CACHE_HOME may name another folder)"
  keeps=$cache
  can_keep "$keeps" || keeps=$passing && can_keep "$keeps" && new=$(mktemp -d "$keeps/new-XXXXXX") || return 1
  trap 'rm -rf "$new"' EXIT
  found=$keeps/$total/factoplan
  # (it takes its place by one step, so that another call finds the old one or the new one)
  said=$({ unpack "$top/release/$archive" "$new" && mkdir -p "$keeps/$total" && mv -f "$new"/factoplan-*/libexec/factoplan/factoplan "$found"; } 2>&1)
  rm -rf "$new"
  trap - EXIT
  lacking="release/$archive can't be unpacked in $keeps: $(first_line "${said:-its program is not what release/SOURCES says}")"
  is_whole || return 1
  said=$("$found" --version 2>&1) || {
    lacking="the release doesn't run on this system: $(first_line "$said")"
    return 1
  }
  where="release/$archive (sum of sources $(short "$sum"), unpacked in $keeps)"
  say "nothing is built here, so the release of the same sources runs: $where. factoplan --build proves and builds"
}

first_line() { printf '%s\n' "$1" | head -n 1; }

# Unpacks an archive below a folder.
unpack() {
  if have gzip && have tar; then
    gzip -dc "$1" | tar -xf - -C "$2"
  elif have python3; then
    python3 -c 'import sys, tarfile; tarfile.open(sys.argv[1]).extractall(sys.argv[2])' "$1" "$2"
  else
    echo 'unpacking it needs gzip and tar, or Python 3'
    return 1
  fi
}
