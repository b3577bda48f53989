# Completion for bash: source this file, or put it where bash-completion looks for it.
# Made by `make docs`.

_edgematch() {
  local word=${COMP_WORDS[COMP_CWORD]} before=${COMP_WORDS[COMP_CWORD - 1]} command=${COMP_WORDS[1]} words
  COMPREPLY=()
  if [ "$COMP_CWORD" -eq 1 ]; then
    words="check explain find solve expand page count total generate show draw symmetries tiles help --help --version"
  else
    case $before in
      --all | --clues | --colours | --easiest | --first | --forks | --fuel | --hardest | --like | --most | --part | --seed | --size | --spare | --title | --tries) return ;;
      --workers)
        mapfile -t COMPREPLY < <(compgen -W "all" -- "$word")
        return
        ;;
      --symmetries)
        mapfile -t COMPREPLY < <(compgen -W "all board" -- "$word")
        return
        ;;
      --depth)
        mapfile -t COMPREPLY < <(compgen -W "0 1 2 3 auto" -- "$word")
        return
        ;;
      --border)
        mapfile -t COMPREPLY < <(compgen -W "frame one free each" -- "$word")
        return
        ;;
      --turns)
        mapfile -t COMPREPLY < <(compgen -W "yes no" -- "$word")
        return
        ;;
    esac
    case $command in
      check) words="--workers --forks --progress --hints --help" ;;
      explain) words="--help" ;;
      find) words="--first --orbits --symmetries --seed --workers --progress --help" ;;
      solve) words="--depth --fuel --workers --symmetries --check --progress --hints --help" ;;
      expand) words="--orbits --hints --help" ;;
      page) words="--title --first --hints --help" ;;
      count) words="--workers --most --part --progress --help" ;;
      total) words="--help" ;;
      generate) words="--like --colours --border --turns --mates --spare --clues --different --unique --tries --hardest --easiest --seed --progress --help" ;;
      show) words="--help" ;;
      draw) words="--first --all --numbers --cut --size --help" ;;
      symmetries) words="--help" ;;
      tiles) words="--lines --help" ;;
      help) words="check explain find solve expand page count total generate show draw symmetries tiles help" ;;
    esac
  fi
  case $command in
    check | explain | find | solve | expand | page | count | total | show | draw | symmetries)
      if [ "$COMP_CWORD" -gt 1 ] && [ "${word:0:1}" != - ]; then
        mapfile -t COMPREPLY < <(compgen -f -- "$word")
        return
      fi
      ;;
  esac
  mapfile -t COMPREPLY < <(compgen -W "$words" -- "$word")
}

complete -o filenames -F _edgematch edgematch
