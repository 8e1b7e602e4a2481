# What ./play and ./record share: they read it with their name in $name and the checkout's folder in $here. $program is the proved program
# that is asked for; rt puts it into its crate's out/.
say() { printf '%s: %s\n' "$name" "$*" >&2; }
die() { say "$@"; exit 2; }

# a folder, $folder, for what is gone at the end
make_folder() {
  folder=$(mktemp -d "${TMPDIR:-/tmp}/$name.XXXXXX" 2>/dev/null) || die "no temporary folder can be made in ${TMPDIR:-/tmp}: set TMPDIR to a folder that can be written"
  trap 'rm -rf "$folder"' EXIT
  trap 'exit 2' HUP INT TERM
}

# whether the program is there, and no source of it is newer
root=$here
proved() { printf '%s\n' "$root/crates/$program/out/$program"; }
built() { [ -x "$(proved)" ] && [ -z "$(find "$root/crates" "$root/crates.txt" -name out -prune -o -newer "$(proved)" \( -name '*.rt' -o -name '*.antt' -o -name crates.txt \) -print)" ]; }

# A checkout that cannot be written is copied to where the user's caches are, again where a file of it has changed. What rt keeps in each
# out/ is not the checkout's, and that of the copy stays.
sources() { find crates crates.txt -name out -prune -o -type f "$@"; }
sums() { (cd "$1" && sources -exec cksum {} + | sort); }
copy() {
  root=${XDG_CACHE_HOME:-${HOME:-}/.cache}/wangemipe-panel
  { mkdir -p "$root/target" && touch "$root/sums"; } 2>/dev/null || die "$program is to be built, and neither $here nor $root can be written: set XDG_CACHE_HOME to a folder that can"
  if ! sums "$here" | cmp -s - "$root/sums"; then
    rm -f "$root/sums"
    [ ! -d "$root/crates" ] || (cd "$root" && sources -exec rm -f {} +)
    (cd "$here" && sources -print | tar -cf - -T -) | (cd "$root" && tar -xmf - && sources -exec chmod u+w {} +) || die "$here could not be copied to $root"
    sums "$here" >"$folder/sums"
    sums "$root" | cmp -s - "$folder/sums" || die "$here could not be copied to $root"
    cp "$folder/sums" "$root/sums"
  fi
}

# the crates that the program stands on, and its own, a line each, in the order in which rt takes them
order() {
  sed 's/#.*//' "$root/crates.txt" | awk -F: -v top="$program" '{ split($1, word, " "); needs[word[1]] = $2 }
    function take(name,  need, n, i) { if (!(name in needs) || name in taken) return; taken[name]; n = split(needs[name], need, " "); for (i = 1; i <= n; i++) take(need[i]); print name }
    END { take(top) }'
}

# Says of rt's lines, as they come, which crate is proved. Where rt begins one, it has passed those ahead that it need not prove; there may
# be more behind. The line `slow` comes when some time has gone.
progress() {
  order >"$folder/order"
  all=$(wc -l <"$folder/order")
  crate='' place=0 is_slow=''
  while IFS= read -r line; do
    case $line in
    slow) is_slow=yes ;;
    'rt: chose '*' for '*) crate=${line##* } place=$(grep -nx "${line##* }" "$folder/order" | cut -d: -f1) ;;
    logic=proved*) [ -z "$crate" ] || say "$crate proved, $place of $all" ;;
    esac
    [ -n "$is_slow" ] && [ -n "$place" ] && [ "$place" -gt 0 ] || continue
    [ "$is_slow" = said ] || [ "$place" -eq "$all" ] || say "up to $((all - place + 1)) crates are to be proved: about $(((all - place + 1) / 3 + 1)) min"
    is_slow=said
  done
}

# By rt, only from proved crates. rt has no command that builds a program and no more, so it is run once, on nothing.
build() {
  command -v rt >/dev/null || die "$program is to be built, by the Rattle toolchain, and its command rt is not on the PATH"
  where=
  [ "$root" = "$here" ] || where=" in $root, since $here cannot be written"
  say "building $program first$where"
  {
    { sleep 1; [ -e "$folder/ended" ] || sleep 1; [ -e "$folder/ended" ] || echo slow; } &
    { (cd "$root/crates/$program" && rt run </dev/null 2>&1 >/dev/null) || :; : >"$folder/ended"; } | tee "$root/target/$name.log"
    wait
  } | progress
  grep -q "^rt: running out/$program;" "$root/target/$name.log" || die "$program was not built: $root/target/$name.log says why"
  touch "$(proved)"
}

# Builds the program where that is needed. Programs are for x86-64; elsewhere they run under an emulator, with the toolchain's C library.
ready() {
  if ! built; then
    { mkdir -p "$root/target" "$root/crates/$program/out" && touch "$root/target/$name.log" "$root/crates/$program/out"; } 2>/dev/null || copy
    built || build
  fi
  machine=$(uname -m)
  [ "$machine" != x86_64 ] || return 0
  { command -v rt && command -v qemu-x86_64; } >/dev/null || die "$program is for x86-64, and on $machine it runs under an emulator: put qemu-x86_64 and the Rattle toolchain's command rt on the PATH"
  tools=$(dirname "$(rt doc)")/toolchain
}

# Runs it on $folder/in: what it writes is in $folder/out, and what it says is said.
run() {
  set -- "$(proved)" "$@"
  [ "$machine" = x86_64 ] || set -- qemu-x86_64 "$tools/lib/ld-linux-x86-64.so.2" --library-path "$tools/lib" "$@"
  "$@" <"$folder/in" >"$folder/out" 2>"$folder/said" || { cat "$folder/said" >&2; die "$program stopped early"; }
  cat "$folder/said" >&2
}

# what it wrote
show() { cat "$folder/out" 2>/dev/null || { [ $? -gt 128 ] || say "standard output cannot be written"; exit 2; }; }
