# shellcheck shell=bash
# Completion of natgw's command line in bash, as /usr/share/bash-completion/completions/natgw.

_natgw() {
  local word=${COMP_WORDS[COMP_CWORD]} before=${COMP_WORDS[COMP_CWORD - 1]} command=${COMP_WORDS[1]}
  local sides='--inside --external --lan --wan --filtering --help' state='--dir --at' choices=''
  case $COMP_CWORD:$before in
    1:*) choices='check replay serve tun loop show rules --help --version' ;;
    *:--filtering) choices='endpoint address' ;;
    *:--socket-mode) choices='600 660 666' ;;
    *:--dir)
      compopt -o filenames
      mapfile -t COMPREPLY < <(compgen -d -- "$word")
      return
      ;;
    *:--inside | *:--external | *:--lan | *:--wan | *:--at | *:--connections | *:--lan-fd | *:--wan-fd | *:--report | *:--log-drops) return ;;
    *:--socket | *:--rules | *:--report-file) ;;
    *)
      case $command in
        check) choices="--explain $sides" ;;
        serve) choices="$state --socket --socket-mode --connections $sides" ;;
        tun) choices="$state --lan-fd --wan-fd --rules --no-offload --report --report-file --log-drops $sides" ;;
        show) choices="$state --running --json $sides" ;;
        rules) choices="$state --running $sides" ;;
        replay | loop) choices="$state $sides" ;;
      esac
      # FILE of check and loop, unless an option has begun.
      case $command:$word in check:[!-]* | loop:[!-]* | check: | loop:) choices='' ;; esac
      ;;
  esac
  if [ "$choices" ]; then
    mapfile -t COMPREPLY < <(compgen -W "$choices" -- "$word")
  else
    compopt -o filenames
    mapfile -t COMPREPLY < <(compgen -f -- "$word")
  fi
}
complete -F _natgw natgw
