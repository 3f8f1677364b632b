# Completion of provision-image for bash.

_provision_image() {
  local commands='apply layer diff check why'
  local runs='--runs --now --fact --strict --json --help'
  local current=${COMP_WORDS[COMP_CWORD]} previous=${COMP_WORDS[COMP_CWORD - 1]} command='' word
  local -i place=1 given=0
  COMPREPLY=()

  # The command, and how many words that are not options stand behind it.
  while ((place < COMP_CWORD)); do
    word=${COMP_WORDS[place]}
    case $word in
      --program | --runs | --now | --fact | --only | --ids-from) place+=1 ;;
      -?*) ;;
      *) if [ -z "$command" ]; then command=$word; else given+=1; fi ;;
    esac
    place+=1
  done

  case $previous in
    --runs)
      mapfile -t COMPREPLY < <(compgen -W "sysusers create remove clean purge boot" -- "$current")
      return ;;
    --now | --fact | --only)
      return ;;
    --program | --ids-from)
      compopt -o default 2> /dev/null
      return ;;
  esac
  if [ -z "$command" ]; then
    mapfile -t COMPREPLY < <(compgen -W "$commands --program --version --help" -- "$current")
    return
  fi
  case $current in
    -*)
      case $command in
        apply | layer) runs+=' --ids-from' ;;
        diff) runs+=' --ids-from --exit-code' ;;
        check) runs+=' --only' ;;
      esac
      mapfile -t COMPREPLY < <(compgen -W "$runs" -- "$current")
      return ;;
  esac
  # `why` has a path of the root first, which no file of the machine completes.
  if [ "$command" = why ] && ((given == 0)); then return; fi
  compopt -o default 2> /dev/null
}

complete -F _provision_image provision-image
