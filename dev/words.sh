# The words that `pgmtool` takes, and what is wrong with others: sourced by it.
#
# The program goes by one definition of its own (`crates/command_line`), and judges the words. The
# tables here are for help, and for plain words behind a refusal. `dev/test_pgmtool.py` compares
# them with that definition.

# The commands: their words, and what they write.
commands() {
  cat <<'TEXT'
build FILE|how many keys, levels and segments the index of a key file has
explain FILE|what `build` writes, and each segment with what shows that it is needed
query FILE SCRIPT|for each line `find Q` of the script, how many keys are below Q
relax FILE SCRIPT|what `query` writes, by pieces side by side, and how far from fewest that is
box FILE SCRIPT|for each line `box LOW_1 .. LOW_d HIGH_1 .. HIGH_d`, the points in it
near FILE SCRIPT|for each line `near C_1 .. C_d K`, the K points nearest to a centre
replay SCRIPT|what a map answers to a script's questions, after its updates and beside them
mix SCRIPT|what `replay` writes, of updates that senders send in threads of their own
save FILE|the index of a key file, as bytes that `check` takes
check FILE INDEX|whether a saved index is the one index of a key file
hints FILE|hints for a key file: numbers that say where in it to look first
find FILE HINTS SCRIPT|what `query` writes, led by a file of hints, whatever that holds
drill N SEED|what is counted of N inputs of each kind, drawn from a seed
TEXT
}

# The options, and the names that stand for numbers: the word; the least, the greatest and the
# default number, none where it takes no number; of which commands; and what it says.
options() {
  cat <<'TEXT'
N|1|1000000||drill|how many inputs of each kind
SEED|0|2147483647||drill|what they are drawn from
--eps|0|1048576|64|build explain query relax save drill|error bound of level 0, in places
--rec|0|1048576|4|build explain query relax save drill|that of the levels above
--eps|0|1048576|32|hints|error bound of the hints, in places
--narrow||||build explain query relax save check hints find|keys are 32 bits wide, and not 64
--workers|1|64|4|build explain query relax save drill|threads that build it
--windows||||query|the windows along each lookup in the index, too
--buckets|0|20|0|query|find segments by a table over so many top bits of a key, by none with 0
--pieces|1|65536|4|relax|how many pieces
--dims|2|4|2|box near|how many coordinates a point has
--levels|1|26|20|replay mix|levels of the map, which accepts 64 * 2^L - 1 entries with L of them
--batch|1|65536|16|replay mix|how many updates are published at once
--readers|0|16|0|replay mix|how many readers ask beside the updates
--workers|1|64|4|replay mix|threads that build a level of the map
--senders|1|16|2|mix|how many senders
TEXT
}

# The lines of scripts: how one is written, and of which commands.
script_lines() {
  cat <<'TEXT'
find Q|query relax find
box LOW_1 .. LOW_d HIGH_1 .. HIGH_d|box
near C_1 .. C_d K|near
put K V|replay mix
del K|replay mix
sweep A B|replay
get K|replay mix
next Q|replay mix
count A B|replay mix
TEXT
}

# What else a person has to know of a command: its name, and a sentence.
remarks() {
  cat <<'TEXT'
box|A point is in a box if each of its coordinates is from LOW_i to HIGH_i, both included.
near|The distance is the greatest difference of a coordinate (Chebyshev), not the Euclidean one.
relax|The slack is how many segments fewer another index could have, at most.
find|HINTS is what `hints` wrote for the keys; any other file makes it slow, and no answer wrong.
TEXT
}

# The line of a command; fails where there is none of this name.
command_named() {
  commands | awk -v name="$1" '$1 == name { print; found = 1 } END { exit !found }'
}

# The least and the greatest number that an option or a name of a command takes, and its default;
# fails where the command has none of this name.
option_of() {
  options | awk -F'|' -v name="$1" -v of="$2" \
    'name == $1 && index(" " $5 " ", " " of " ") { print $2, $3, $4; found = 1 }
    END { exit !found }'
}

# Lines of the table of options, as a person reads them.
print_options() {
  local word least most default of text
  while IFS='|' read -r word least most default of text; do
    if [ -z "$least" ]; then
      printf '  %-13s %s\n' "$word" "$text"
    else
      case $word in --*) word="$word N" ;; esac
      printf '  %-13s %s: %s to %s%s\n' "$word" "$text" "$least" "$most" "${default:+ ($default)}"
    fi
    [ "$1" != all ] || printf '%16sof %s\n' '' "${of// /, }"
  done
}

# All commands.
usage_words() {
  echo 'usage: ./pgmtool COMMAND .. [OPTION ..], ./pgmtool help [COMMAND], test, prove, --version'
  echo
  echo 'commands:'
  commands | while IFS='|' read -r words text; do printf '  %-22s %s\n' "$words" "$text"; done
}

# All commands and options.
usage() {
  usage_words
  echo
  echo 'options, with their ranges and (their defaults):'
  options | print_options all
  echo
  echo 'help COMMAND lists the options of one; test runs the tests, in minutes and unproved; prove'
  echo 'proves the program and builds it; --version tells which one this is.'
  echo 'docs/formats.md has the files, the text and the statuses, docs/examples.md examples, and'
  echo 'dev/keys.py makes a key file of a text, a CSV file or what numpy and pandas read.'
}

# A command with its options; fails where there is none of this name.
usage_of() {
  local line
  line=$(command_named "$1") || return 1
  echo "usage: ./pgmtool ${line%%|*} [OPTION ..]"
  echo "Writes ${line#*|}."
  remarks | awk -F'|' -v of="$1" '$1 == of { print $2 }'
  options | awk -F'|' -v of="$1" 'index(" " $5 " ", " " of " ")' | print_options one
}

# What is wrong with a word where a number from the least to the greatest belongs; says nothing
# where nothing is.
wrong_number() {
  local said=$1 word=$2 least=$3 most=$4 digits
  digits=${word#+}
  if [[ ! $digits =~ ^[0-9]+$ ]]; then
    echo "$said: \`$word\` is no whole number from $least to $most"
    return
  fi
  digits=${digits#"${digits%%[!0]*}"}
  if [ "${#digits}" -gt 10 ] || ((${digits:-0} < least || ${digits:-0} > most)); then
    echo "$said: $word is not from $least to $most"
  fi
}

# What is wrong with the first wrong word of a command of the tables: says nothing where these words
# are ones that the program takes.
wrong_word() {
  local command=$1 seen=' ' given=() word name value range wanted number
  shift
  while [ $# -gt 0 ]; do
    word=$1
    shift
    case $word in
      --)
        given+=("$@")
        break
        ;;
      -) given+=("$word") ;;
      -*)
        name=${word%%=*}
        case $name in --*) ;; *) echo "\`$word\`: there are no short options" && return ;; esac
        if ! range=$(option_of "$name" "$command"); then
          echo "\`$command\` has no option \`$name\`"
          return
        fi
        case $seen in *" $name "*) echo "\`$name\` stands twice" && return ;; esac
        seen+="$name "
        # A flag's range is empty.
        if [ -z "${range// /}" ]; then
          [ "$name" = "$word" ] || { echo "\`$name\` takes no value" && return; }
          continue
        fi
        if [ "$name" != "$word" ]; then
          value=${word#*=}
        elif [ $# -gt 0 ]; then
          value=$1
          shift
        else
          echo "\`$name\` wants a number behind it"
          return
        fi
        value=$(wrong_number "\`$name\`" "$value" ${range% *})
        [ -z "$value" ] || { echo "$value" && return; }
        ;;
      *) given+=("$word") ;;
    esac
  done
  wanted=$(command_named "$command")
  read -r -a wanted <<<"${wanted%%|*}"
  wanted=("${wanted[@]:1}")
  if [ "${#given[@]}" -lt "${#wanted[@]}" ]; then
    echo "\`$command\` wants ${wanted[*]}, and ${wanted[${#given[@]}]} isn't given"
    return
  elif [ "${#given[@]}" -gt "${#wanted[@]}" ]; then
    echo "\`${given[${#wanted[@]}]}\` is a word too many: \`$command\` wants ${wanted[*]}"
    return
  fi
  for number in "${!given[@]}"; do
    range=$(option_of "${wanted[$number]}" "$command") || continue
    wrong_number "${wanted[$number]}" "${given[$number]}" ${range% *}
  done | head -n 1
}

# Why a line of a command's script may not begin with a word: which lines it has, and which commands
# take one that begins so.
wrong_line() {
  script_lines | word=$2 awk -F'|' -v of="$1" '
    index(" " $2 " ", " " of " ") { own = own (own ? ", " : "") "`" $1 "`" }
    index($1, ENVIRON["word"] " ") == 1 { count = split($2, others, " ") }
    END {
      printf "`%s` is no command of this script, whose lines are %s", ENVIRON["word"], own
      for (i = 1; i <= count; i++)
        printf "%s`%s`", (i == 1 ? "; " : i < count ? ", " : " and "), others[i]
      print (count > 1 ? " take it" : count ? " takes it" : "")
    }'
}

# What is wrong with a word where a number of a command's script belongs, and what makes a key of
# it.
no_number() {
  local word=$2 part map=
  if [[ $word =~ ^[+-]?([0-9]+\.?|[0-9]*\.([0-9]+))$ ]]; then
    part=${BASH_REMATCH[2]}
    while [ "$part" != "${part%0}" ]; do part=${part%0}; done
    case $word in *.*) map=" --scale 1${part//?/0}" ;; esac
    # Half of the range is added to what may be negative, and a coordinate has another range.
    case $1/$word in box/-* | near/-*) map= ;; */-*) map+=' --signed' ;; esac
    [ "${#part}" -le 19 ] || map=
    map=${map:+": \`dev/keys.py$map --key $word\` gives the key"}
    echo "\`$word\` is no whole number from 0 on$map"
  elif [[ $word =~ ^[0-9]{4}-[0-9]{2}-[0-9]{2}(T|$) ]]; then
    echo "\`$word\` is no number: \`dev/keys.py --time --key $word\` gives the key"
  else
    echo "\`$word\` is no number"
  fi
}

# The words of a call that are names and no options, a line each: most are files.
given_names() {
  local flags
  flags=" $(options | awk -F'|' '$2 == "" { printf "%s ", $1 }')"
  shift
  while [ $# -gt 0 ]; do
    case $1 in
      --)
        shift
        [ $# = 0 ] || printf '%s\n' "$@"
        return
        ;;
      --*=*) ;;
      # A flag has no number behind it.
      --*) case $flags in *" $1 "*) ;; *) shift ;; esac ;;
      *) echo "$1" ;;
    esac
    [ $# = 0 ] || shift
  done
}

# Why a file of a call could not be read.
unread_file() {
  local name
  while read -r name; do
    if [ -d "$name" ]; then
      echo "\`$name\` is a folder, where a file is asked for"
    elif [ ! -e "$name" ]; then
      echo "there is no file \`$name\`"
    elif [ ! -r "$name" ]; then
      echo "the file \`$name\` may not be read"
    else
      continue
    fi
    return
  done < <(given_names "$@")
  echo 'a file could not be read to its end'
}
