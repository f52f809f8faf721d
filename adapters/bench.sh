# shellcheck shell=bash
# Network namespaces for trying natgw with real hosts; sourced by scripts. Root, iproute2 and python3 are needed.
#
#   one  192.168.1.2    \                                                    / 198.51.100.7
#   web  192.168.1.80   -- lan: 192.168.0.1 [natgw] wan: 198.51.100.1  --  far
#   ssh  192.168.1.22   /          (inside)          (203.0.113.1)           \ 198.51.100.9
#
# Each name is a network namespace, with a prefix that no other run has. The devices natgw-lan and natgw-wan lie in
# the namespaces lan and wan; there is no other way between these two. Nothing outside the namespaces is changed.
#
# WAY says what carries the packets: tun, natgw tun by itself, or adapter, tun.py with natgw serve. OFFLOAD=no leaves the
# kernel's offloads away, STEERING=yes takes its steering.

repository=$(cd "$(dirname "${BASH_SOURCE[0]}")/.." && pwd)
natgw=${NATGW:-$repository/crates/natgw/out/natgw}
adapter=$repository/adapters/tun.py
way=${WAY:-tun}
case $way in tun | adapter) ;; *) echo "$0: WAY is tun or adapter" >&2; exit 2 ;; esac
external=203.0.113.1
sides=(--inside 192.168.0.0/16 --external "$external")
near=192.168.1.2 web=192.168.1.80 ssh=192.168.1.22 far=198.51.100.7 stranger=198.51.100.9
bench=ng$$
spaces=()
started=()

# Tells the comment at the head of the script that sources this.
tell_help() {
  sed -n '2,/^[^#]/s/^# \{0,1\}//p' "$0"
}
if [ "${1-}" = --help ]; then
  tell_help
  exit 0
fi

# For scripts without options: takes_no_words "$@".
takes_no_words() {
  [ $# = 0 ] || { tell_help >&2; exit 2; }
}

# Says why there is nothing to try, and ends.
needs() {
  [ "$(id -u)" = 0 ] || { echo "$0: only root can make network namespaces" >&2; exit 2; }
  local tool
  for tool in ip python3 "$@"; do
    command -v "$tool" >/dev/null || { echo "$0: $tool is needed (Debian: apt-get install iproute2 python3 $*)" >&2; exit 2; }
  done
  [ -c /dev/net/tun ] || { echo "$0: there is no /dev/net/tun" >&2; exit 2; }
  [ -x "$natgw" ] || { echo "$0: there is no program $natgw: './natgw --version' builds it, NATGW names another" >&2; exit 2; }
}

# Runs a command in a namespace of the bench.
on() {
  local name=$1
  shift
  ip netns exec "$bench-$name" "$@"
}

# Starts a command in a namespace, in the background; it ends with the bench. Its id is in `last`.
start_on() {
  local name=$1
  shift
  ip netns exec "$bench-$name" "$@" &
  last=$!
  started+=("$last")
}

space() {
  ip netns add "$bench-$1"
  spaces+=("$1")
  on "$1" ip link set lo up
  on "$1" sysctl -qw net.ipv6.conf.all.disable_ipv6=1 net.ipv6.conf.default.disable_ipv6=1 net.ipv4.conf.all.rp_filter=0 \
    net.ipv4.conf.default.rp_filter=0 2>/dev/null || true
}

# link NAME DEVICE OTHER-NAME OTHER-DEVICE: a cable between two namespaces.
link() {
  ip link add "$2" netns "$bench-$1" type veth peer name "$4" netns "$bench-$3"
  on "$1" ip link set "$2" up
  on "$3" ip link set "$4" up
}

# inside_host NAME ADDRESS: a host behind lan.
inside_host() {
  space "$1"
  link "$1" eth0 lan "to-$1"
  on lan ip link set "to-$1" master br0
  on "$1" ip address add "$2/16" dev eth0
  on "$1" ip route add default via 192.168.0.1
}

# tun_device NAME DEVICE: a device for the adapter, which stays when the adapter ends.
tun_device() {
  on "$1" ip tuntap add dev "$2" mode tun
  on "$1" ip link set "$2" up mtu 1500
}

# A directory for all that the bench writes. At the end of the script nothing of the bench stays.
bench_begin() {
  work=$(mktemp -d)
  trap bench_down EXIT
}

bench_up() {
  bench_begin
  mkdir "$work/state"
  : >"$work/natgw.log"
  : >"$work/adapter.log"
  space lan
  space wan
  space far
  on lan sysctl -qw net.ipv4.ip_forward=1
  on wan sysctl -qw net.ipv4.ip_forward=1
  on lan ip link add br0 type bridge
  on lan ip address add 192.168.0.1/16 dev br0
  on lan ip link set br0 up
  inside_host one "$near"
  inside_host web "$web"
  inside_host ssh "$ssh"
  link wan eth0 far eth0
  on wan ip address add 198.51.100.1/24 dev eth0
  on far ip address add "$far/24" dev eth0
  on far ip address add "$stranger/24" dev eth0
  on far ip route add default via 198.51.100.1
  tun_device lan natgw-lan
  tun_device wan natgw-wan
  # What hosts send out goes to natgw; what comes for the external address does, too.
  on lan ip route add default dev natgw-lan
  on wan ip route add "$external/32" dev natgw-wan
}

bench_down() {
  local id name
  for id in "${started[@]}"; do kill -9 "$id" 2>/dev/null || true; done
  for id in "${started[@]}"; do wait "$id" 2>/dev/null || true; done
  for name in "${spaces[@]}"; do ip netns del "$bench-$name" 2>/dev/null || true; done
  rm -rf "$work"
}

# OFFLOAD=no leaves the kernel's offloads away, STEERING=yes takes its steering. LOG_DROPS=N has N dropped packets a
# second told of in the adapter's log.
of_devices=()
[ "${OFFLOAD:-yes}" = yes ] || of_devices+=(--no-offload)
[ "${STEERING:-no}" = no ] || of_devices+=(--steering)
log_drops=()
[ -z "${LOG_DROPS-}" ] || log_drops=(--log-drops "$LOG_DROPS")
spaces_of_devices=(--lan-netns "$bench-lan" --wan-netns "$bench-wan")

# Starts natgw over the directory of the bench, with the ruleset at $work/rules.nft; its id is in `gateway`, and that of what
# carries packets in `carrier`. The socket of a killed one is removed first.
start_natgw() {
  if [ "$way" = tun ]; then
    "$repository/adapters/with-tuns" "${of_devices[@]}" "${spaces_of_devices[@]}" -- "$natgw" tun "${sides[@]}" --dir "$work/state" \
      --rules "$work/rules.nft" --report 1 --report-file "$work/natgw.prom" "${log_drops[@]}" 2>>"$work/adapter.log" &
    carrier=$!
  else
    rm -f "$work/natgw.sock"
    "$natgw" serve "${sides[@]}" --dir "$work/state" --socket "$work/natgw.sock" --connections 1000000 \
      --at "$(date +%s)" 2>>"$work/natgw.log" &
  fi
  gateway=$!
  started+=("$gateway")
}

# Kills natgw with signal 9, as a loss of power would end it.
kill_natgw() {
  kill -9 "$gateway"
  wait "$gateway" 2>/dev/null || true
}

# start_adapter: what carries packets, if natgw doesn't itself; its id is in `carrier`. Waits until the rules are loaded.
start_adapter() {
  if [ "$way" = adapter ]; then
    python3 "$adapter" "${of_devices[@]}" --socket "$work/natgw.sock" --rules "$work/rules.nft" "${spaces_of_devices[@]}" \
      --report 1 --report-file "$work/natgw.prom" "${log_drops[@]}" 2>>"$work/adapter.log" &
    carrier=$!
    started+=("$carrier")
  fi
  until_said "is loaded" 1
}

# load_rules FILE: puts a ruleset in the place of the one before, and waits until it is loaded.
load_rules() {
  local loads
  loads=$(grep -c "is loaded" "$work/adapter.log" || true)
  cp "$1" "$work/rules.part"
  mv "$work/rules.part" "$work/rules.nft"
  [ "$way" = tun ] || kill -HUP "$carrier"
  until_said "is loaded" $((loads + 1))
}

# Prints the counts of what carries packets, without the zeros. They are written once a second.
tell_counts() {
  sleep 2.5
  grep -v "^#\| 0$" "$work/natgw.prom"
}

# until_said WORDS N: waits until the adapter has said these words N times, ten seconds at most.
until_said() {
  for _ in $(seq 200); do
    [ "$(grep -c "$1" "$work/adapter.log")" -lt "$2" ] || return 0
    sleep 0.05
  done
  echo "$0: the adapter didn't say '$1'; its words:" >&2
  cat "$work/adapter.log" "$work/natgw.log" >&2
  exit 1
}
