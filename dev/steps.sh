# What `pgmtool` and the scripts of `examples/` share: the kit, the version, and what they say of
# their steps. How a long one goes is one line on standard error, where that is a terminal; elsewhere
# it isn't written.

# What wipes that line, for those who write others between.
wipe=
[ ! -t 2 ] || wipe=$'\r\e[K'
shower=

# The kit that all was proved with.
kit=rattle-kit-13f

# The version, which stands in the header, of the repository in this folder.
version_of() { sed -n 's/^#define KULDEBIQ_VERSION_TEXT "\(.*\)"$/\1/p' "$1/include/kuldebiq.h"; }

# For the script of this name: if there is no `rt`, says what it is and how to get it, and fails; if
# there is one of another kit, says so.
has_rt() {
  if ! command -v rt >/dev/null; then
    {
      echo "$1: there is no \`rt\` on the PATH. It is the tool of the Rattle kit, which proves and"
      echo "$1: builds the crates; nothing here is built without it. Unpack the kit and put its folder"
      echo "$1: bin on the PATH; \`rt version\` then prints its name. This was proved with $kit."
    } >&2
    return 1
  fi
  case $(rt version 2>/dev/null || true) in
    "$kit "*) ;;
    *) echo "$1: this was proved with $kit, and \`rt version\` prints another kit" >&2 ;;
  esac
}

# Shows what the command after the first two words writes (the step and how far it is), and how long
# the step has taken: from the third second on, every so many seconds, until the command fails or
# `hide_progress` is called.
show_progress() {
  [ -n "$wipe" ] || return 0
  local who=$1 apart=$2 begun=$SECONDS width
  shift 2
  width=$(tput cols 2>/dev/null || echo 80)
  (
    trap - EXIT
    set +e
    sleep 2
    while kill -0 $$ 2>/dev/null; do
      text=$("$@" 2>/dev/null) || break
      text=$(shortened "$who: $text" $((width - 10)))
      time=$(clock $((SECONDS - begun)))
      printf '%s%s, %s' "$wipe" "$text" "$time" >&2
      sleep "$apart"
    done
    printf '%s' "$wipe" >&2
  ) >/dev/null &
  shower=$!
}

hide_progress() {
  [ -n "$shower" ] || return 0
  kill "$shower" 2>/dev/null || true
  wait "$shower" 2>/dev/null || true
  shower=
  printf '%s' "$wipe" >&2
}

# A text, without its last words where it is longer than so many characters.
shortened() {
  local text=$1
  if [ "${#text}" -gt "$2" ]; then
    text=${text:0:$(($2 - 2))}
    text="${text% *} .."
  fi
  echo "$text"
}

# Seconds, as minutes and seconds.
clock() { printf '%d:%02d' $(($1 / 60)) $(($1 % 60)); }

# The crates that a crate stands on and that crate, in the order in which `rt` takes them.
crates_below() {
  awk -v top="$2" '
    { sub(/#.*/, "") }
    index($0, ":") {
      split($0, halves, ":")
      split(halves[1], words, " ")
      uses[words[1]] = halves[2]
    }
    function visit(name,   deps, count, i) {
      if (name in seen || !(name in uses)) return
      seen[name] = 1
      count = split(uses[name], deps, " ")
      for (i = 1; i <= count; i++) visit(deps[i])
      print name
    }
    END { visit(top) }' "$1/crates.txt"
}

# Of what `rt` writes while it proves crates, a line for each that is proved, behind the first word.
proved_crates() {
  sed -un "/^crate /{s/^crate \([a-z_0-9]*\):.*/$1: \1 is proved/;h}
    /^logic=proved /{x;s/^..*/$wipe&/p}"
}

# How far `rt` is, of what it wrote to a file and of the crates in their order, in another: the
# crate of which it wrote last, and how many functions of it are proved.
proof_so_far() {
  awk '
    FNR == NR { place[$1] = ++all; next }
    /^(fn|struct|enum|impl|trait|const|type) [a-z_0-9]+::.*: proved/ {
      split($2, path, "::")
      if (!(path[1] in place)) next
      if (path[1] != at) functions = 0
      at = path[1]
      functions += $1 == "fn"
    }
    /^rt: chose --jobs/ && ($NF in place) { at = $NF; functions = 0 }
    END {
      if (at == "") printf "reading the sources of %d crates", all
      else printf "proving %s, crate %d of %d, functions %d", at, place[at], all, functions
    }' "$2" "$1"
}
