# Completion of fisca for bash. Made by bin/manual from what the program's help says.

# Offers those words of standard input that begin as the typed one. A list of several has what stands behind them too.
_fisca_words() {
  local line
  while IFS= read -r line; do
    [[ ${line%% *} != "$typed"* ]] || COMPREPLY+=("$line")
  done
  # only where COMP_TYPE says that a list is shown no word is put in
  [[ ${#COMPREPLY[@]} -gt 1 && ${COMP_TYPE:-9} =~ ^(33|63|64)$ ]] || COMPREPLY=("${COMPREPLY[@]%% *}")
}

# Offers folders alone with -d, and with -f files and the folders on the way to them.
_fisca_paths() {
  if declare -F _filedir >/dev/null; then
    local cur=$typed # what _filedir reads
    if [[ $1 == -d ]]; then _filedir -d; else _filedir; fi
  else
    compopt -o filenames 2>/dev/null
    mapfile -t COMPREPLY < <(compgen "$1" -- "$typed")
  fi
}

_fisca() {
  local typed=${COMP_WORDS[COMP_CWORD]} command='' wanted=0 at word
  COMPREPLY=()
  for ((at = 1; at < COMP_CWORD; at++)); do
    word=${COMP_WORDS[at]}
    case $word in
      [=:]*) ((at++)) ;; # bash cuts words there: the next one belongs to the one before
      -*)
        case "$command $word" in
          'check --reform' | 'calc --reform' | 'calc --decimals' | 'calc --format' | 'test --name' | 'test --reform' | 'run --reform' | 'run --from' | 'run --to' | 'run --part' | 'run --rows' | 'run --decimals' | 'run --format' | 'size --reform' | 'list --reform' | 'list --format' | 'explain --reform' | 'explain --depth' | 'explain --format' | 'axes --keep' | 'axes --from' | 'axes --to' | 'axes --part' | 'axes --rows' | 'axes --decimals' | 'axes --format')
            [[ ${COMP_WORDS[at + 1]} != = ]] || ((at++))
            ((++at < COMP_CWORD)) || wanted=$word
            ;;
        esac
        ;;
      *) if [[ -z $command ]]; then command=$word; else ((++wanted)); fi ;;
    esac
  done
  [[ $typed != [=:]* ]] || typed=
  if [[ $typed == -* && $wanted != -* ]]; then wanted=-; fi
  [[ $command != test || $wanted == -* ]] || ((wanted = wanted < 1 ? wanted : 1))
  case "$command $wanted" in
    ' 0' | 'help 0')
      _fisca_words <<'END'
check    Check the rule files of a folder
calc     Work out values
test     Run tests of rules
run      Write the lines of a grid of situations
size     Count the positions of a grid
list     List the variables of a rule set
explain  Tell how values come about
axes     List the values of axes
help     Print this message or the help of the given subcommand(s)
END
      ;;
    'check 0' | 'calc 0' | 'test 0' | 'run 0' | 'size 0' | 'list 0' | 'explain 0' | 'check --reform' | 'calc --reform' | 'test --reform' | 'run --reform' | 'size --reform' | 'list --reform' | 'explain --reform') _fisca_paths -d ;;
    'calc 1' | 'test 1' | 'run 1' | 'size 1' | 'explain 1') _fisca_paths -f ;;
    ' -')
      _fisca_words <<'END'
-h         Print help
--help     Print help
-V         Print version
--version  Print version
END
      ;;
    'check -')
      _fisca_words <<'END'
--reform  Lay the files of a reform's folder over those of the rule set
-h        Print help
--help    Print help
END
      ;;
    'calc -')
      _fisca_words <<'END'
--reform    Lay the files of a reform's folder over those of the rule set
--header    Write a first line with the names of the cells
--decimals  Round numbers to N places, 0 to 18 [default: exact]
--format    Write lines as tsv, csv or jsonl
--lines     Take each line of FILE as a file of its own
-h          Print help
--help      Print help
END
      ;;
    'test -')
      _fisca_words <<'END'
--name    Run the tests whose names have TEXT
--reform  Lay the files of a reform's folder over those of the rule set
-h        Print help
--help    Print help
END
      ;;
    'run -')
      _fisca_words <<'END'
--reform      Lay the files of a reform's folder over those of the rule set
--from        Begin at this position [default: 0]
--to          End before this position [default: the last one is worked out]
--part        Take part I of N, such as 1/4, in place of --from and --to
--rows        End after this many lines [default: no limit]
--header      Write a first line with the names of the cells
--decimals    Round numbers to N places, 0 to 18 [default: exact]
--format      Write lines as tsv, csv or jsonl
--keep-going  Write the word of a fault in place of a value, and go on
-h            Print help
--help        Print help
END
      ;;
    'size -')
      _fisca_words <<'END'
--reform  Lay the files of a reform's folder over those of the rule set
-h        Print help
--help    Print help
END
      ;;
    'list -')
      _fisca_words <<'END'
--reform  Lay the files of a reform's folder over those of the rule set
--header  Write a first line with the names of the cells
--format  Write lines as tsv, csv or jsonl
-h        Print help
--help    Print help
END
      ;;
    'explain -')
      _fisca_words <<'END'
--reform  Lay the files of a reform's folder over those of the rule set
--depth   Explain no further than N values below one another
--format  Write text or jsonl [default: text]
-h        Print help
--help    Print help
END
      ;;
    'axes -')
      _fisca_words <<'END'
--keep      List only where an axis meets a condition, such as "salary>=500"
--from      Begin at this position [default: 0]
--to        End before this position [default: the last one is worked out]
--part      Take part I of N, such as 1/4, in place of --from and --to
--rows      End after this many lines [default: no limit]
--header    Write a first line with the names of the cells
--decimals  Round numbers to N places, 0 to 18 [default: exact]
--format    Write lines as tsv, csv or jsonl
-h          Print help
--help      Print help
END
      ;;
  esac
}

complete -F _fisca fisca
