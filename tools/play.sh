# What `zk` and `zk_show` share; each sources it. Before it calls `play`, a script has
#   top      the folder of this repository
#   name     the name of the script and of its program
#   usage    prints what the script is for
#   words_of FORM    prints how many words a form has that reads standard input, or 0

program=$top/crates/$name/out/$name
failed=9                      # the status where nothing was played
most_input=$((64 << 20))      # the longest input that `rt try` hands on, in bytes
most_seconds=600              # how long `rt try` lets a program run

say() { printf '%s: %s\n' "$name" "$*" >&2; }

fail() {
  say "$*"
  exit "$failed"
}

# A source that is newer than the program, if there is one.
newer_source() {
  find "$top/crates" "$top/crates.txt" -path '*/out' -prune -o \
    -type f \( -name '*.rt' -o -name '*.antt' -o -name crates.txt \) -newer "$program" -print -quit
}

version() {
  local commit='of no commit' state='not built yet: each call is played without proofs, until ./build'
  [[ -e $top/.git ]] && commit=$(git -C "$top" describe --always --dirty 2>/dev/null || echo "$commit")
  if [[ -x $program ]]; then
    state="proved and built: $program"
    [[ -z $(newer_source) ]] || state='built, but a source is newer: the next call builds it anew'
  fi
  printf '%s\n' "$name $commit" "$state" "kit: $(rt version 2>/dev/null || echo 'no rt on the PATH')"
}

# Makes the file standard input, in place of `<`.
read_from() {
  [[ -e $1 ]] || fail "there is no file $1"
  [[ ! -d $1 ]] || fail "$1 is a folder, and not a file"
  { exec <"$1"; } 2>/dev/null || fail "$1 can't be read"
}

# Proves and builds the program, where its sources are newer.
build_anew() {
  say 'a source is newer than the proved program, so that is built anew first'
  "$top/build" "$name" </dev/null >&2 || fail 'not built, so nothing is played'
}

# What `rt try` said where the program didn't end, told in the words of a caller.
fail_of_try() {
  if grep -q '^checked: no-answer: the program wrote more than' "$1"; then
    fail 'its output is above 1 MiB, the most that can be played without proofs: run ./build first'
  elif grep -q '^checked: no-answer: the program did not end within' "$1"; then
    fail "it had not ended after $most_seconds seconds, the most that can be played without proofs: run ./build first"
  fi
  cat "$1" >&2
  fail "rt try couldn't play it, as the lines above say"
}

end_of_try() {
  [[ -z ${trying-} ]] || kill "$trying" 2>/dev/null
  rm -rf "$room"
}

# Plays one call without proofs. Its input is read whole first: `rt try` takes one that is silent for two seconds as ended.
play_unproved() {
  local last status
  command -v rt >/dev/null || fail "it isn't built yet, and to play or build it the kit's command rt has to be on the PATH"
  say "not proved: the program isn't built yet, so this call is played without proofs (rt try), in some two minutes"
  say "each call takes as long, until ./build has proved and built the program"
  room=$(mktemp -d) || fail 'no temporary folder can be made'
  trap end_of_try EXIT
  trap 'exit 129' HUP
  trap 'exit 130' INT
  trap 'exit 143' TERM
  if (($(words_of "${1-}") > 0)); then
    cat >"$room/input" || exit 5
  else
    : >"$room/input"
  fi
  (($(stat -c %s "$room/input") < most_input)) ||
    fail 'the input is above 64 MiB, the most that can be played without proofs: run ./build first'
  cd "$top/crates/$name" || fail "there is no folder crates/$name"
  rt try --seconds "$most_seconds" -- "$@" <"$room/input" >"$room/output" 2>"$room/said" &
  trying=$!
  wait "$trying"
  trying=
  last=$(tail -n 1 "$room/said")
  [[ $last == 'run=ended status='* ]] || fail_of_try "$room/said"
  grep -vE '^(interpreter|checked|races|run)[:=]' "$room/said" >&2
  status=${last#run=ended status=}
  cat "$room/output" || exit 6
  exit "${status%% *}"
}

play() {
  local word count
  for word; do
    case $word in
      -h | --help) usage && exit 0 ;;
      --version) version && exit 0 ;;
    esac
  done
  count=$(words_of "${1-}")
  if ((count > 0 && $# == count + 1)); then
    [[ ${!#} == - ]] || read_from "${!#}"
    set -- "${@:1:count}"
  fi
  [[ -x $program ]] || play_unproved "$@"
  [[ -z $(newer_source) ]] || build_anew
  exec "$program" "$@"
}
