# Completion for bash: words first, then files. Source this file, or put it among the completions of bash under the name thiele_cli.

_thiele_cli() {
  local rows='value reserves occupancy moments premium compare audit portfolio merge'
  local others='check upgrade join shift multiply charge generate load'
  local forms='csv json explain' about='help version'
  local word=${COMP_WORDS[COMP_CWORD]} place=$COMP_CWORD command=${COMP_WORDS[1]:-} offered
  COMPREPLY=()
  if [ "$place" -eq 1 ]; then
    offered="$rows $others $forms $about"
  elif [ "$place" -eq 2 ]; then
    case $command in
      csv | json) offered=$rows ;;
      explain) offered="$rows $others" ;;
    esac
  fi
  if [ -n "${offered:-}" ]; then
    mapfile -t COMPREPLY < <(compgen -W "$offered" -- "$word")
    return
  fi
  case " $forms " in
    *" $command "*) command=${COMP_WORDS[2]:-} place=$((place - 1)) ;;
  esac
  # how many words after the command are files
  local files=1
  case $command in
    join | compare | audit) files=2 ;;
    generate | load | help | version) files=0 ;;
  esac
  if [ $((place - 1)) -le "$files" ]; then
    compopt -o filenames 2>/dev/null
    mapfile -t COMPREPLY < <(compgen -f -- "$word")
  fi
}
complete -F _thiele_cli thiele_cli
