# Completion for bash of cron_cluster, run_file, ran, explain and timeline.

# The options of a program.
_hevtsora_options() {
  case $1 in
    cron_cluster) echo --journal --watch --list --check --audit --make --lanes ;;
    run_file) echo --root --from --days --until --grace --replicas --script --zone --zoneinfo --user --system --anacron --cron \
      --modes --skip --list --why --next --change --at --hints --json --csv --check --program --help --version ;;
    ran) echo --from --until --day --grace --late --year --json --root --zone --zoneinfo --user --system --anacron --cron --skip \
      --program --help --version ;;
    explain) echo --plain --help --version ;;
    timeline) echo --make --audit --program --alone --seed --from --until --jobs --launch --text --page --help --version ;;
  esac
}

# Files, or with -d folders, that begin with a word.
_hevtsora_files() {
  compopt -o filenames 2> /dev/null
  mapfile -t COMPREPLY < <(compgen "$1" -- "$2")
}

_hevtsora() {
  local program=${1##*/} word=${COMP_WORDS[COMP_CWORD]} before=${COMP_WORDS[COMP_CWORD - 1]} zones=/usr/share/zoneinfo/zone.tab
  # bash takes a `=` for a word of its own.
  if [[ $word == = ]]; then
    word=
  elif [[ $before == = ]]; then
    before=${COMP_WORDS[COMP_CWORD - 2]}
    # NAME=FILE behind an option.
    [[ $before == -* ]] || before=--user
  fi
  COMPREPLY=()
  case $before in
    --root | --zoneinfo) _hevtsora_files -d "$word" ;;
    --user | --system | --anacron | --script | --change | --program) _hevtsora_files -f "$word" ;;
    --cron) mapfile -t COMPREPLY < <(compgen -W "debian cronie hevtsora" -- "$word") ;;
    --day) mapfile -t COMPREPLY < <(compgen -W "today yesterday" -- "$word") ;;
    --zone) mapfile -t COMPREPLY < <(compgen -W "UTC $(awk '!/^#/ { print $3 }' "$zones" 2> /dev/null)" -- "$word") ;;
    --from | --until | --at | --days | --grace | --late | --year | --replicas | --why | --next | --seed | --jobs | --launch | --make | --lanes) ;;
    *)
      if [[ $word == -* || $program == run_file || $program == cron_cluster ]]; then
        mapfile -t COMPREPLY < <(compgen -W "$(_hevtsora_options "$program")" -- "$word")
      else
        _hevtsora_files -f "$word"
      fi
      ;;
  esac
}

complete -F _hevtsora cron_cluster run_file ran explain timeline
