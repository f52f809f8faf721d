# shellcheck shell=bash disable=SC2034
# Where install puts what, and uninstall finds it; sourced by both.
repository=$(cd "$(dirname "${BASH_SOURCE[0]}")/../.." && pwd)
bin=/usr/local/bin lib=/usr/local/lib/natgw units=/etc/systemd/system
man=/usr/local/share/man/man1 completions=/usr/local/share/bash-completion/completions
kept_settings=/etc/default/natgw kept_rules=/etc/natgw/rules.nft
# The service that carries packets, and brings those that it needs.
carrier=${CARRIER:-natgw-tun}
unit_files=("$repository"/examples/natgw.service "$repository"/adapters/router/natgw-*.service)
shopt -s nullglob
programs=("$repository"/adapters/{router/network,with-tuns*,*.py})
dry=

# Tells the comment at the head of the script that sources this, and ends with a status.
usage() {
  sed -n '2,/^[^#]/s/^# \{0,1\}//p' "$0"
  exit "$1"
}

# The mode of a file that others may read, and run if it is a program.
mode_of() {
  if [ -x "$1" ]; then echo 755; else echo 644; fi
}

# run COMMAND..: runs a command; of a dry run, prints it.
run() {
  if [ "$dry" ]; then echo "$*"; else "$@"; fi
}
