# Completions of sdd1 for bash: the command, and then the files that it reads.
_sdd1() {
  local word=${COMP_WORDS[COMP_CWORD]} command=${COMP_WORDS[1]} most
  if ((COMP_CWORD == 1)); then
    mapfile -t COMPREPLY < <(compgen -W "check graph table run plain make control verify advise" -- "$word")
    return
  fi
  case $command in
    check | graph | table | advise | control) most=2 ;;
    run | plain) most=3 ;;
    verify) most=4 ;;
    *) most=1 ;;
  esac
  ((COMP_CWORD <= most)) && mapfile -t COMPREPLY < <(compgen -f -- "$word")
}
complete -o filenames -F _sdd1 sdd1 sdd1-unproved
