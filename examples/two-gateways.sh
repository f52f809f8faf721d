#!/usr/bin/env bash
# Two gateways share the hosts of one network, and one of them moves to another machine with its connections:
#
#                                      / gateway 1: natgw, 203.0.113.1 \
#   host  192.168.1.1 .. 192.168.1.16 -- edge                        net -- far 198.51.100.7
#                                      \ gateway 2: natgw, 203.0.113.2 /
#                                        spare: stands by
#
# - The edge has one route with two next hops; a hash of the inside address alone picks the gateway.
# - Gateway 2 is lost in the middle of a connection. The spare starts natgw over the files of gateway 2 and takes its
#   addresses, as keepalived would do it. The connection goes on.
#
# Root, iproute2, curl, python3 and Linux 5.14 are needed. All is done in network namespaces of the script's own; each
# gateway is two of them. "The files of gateway 2" are the same directory here; between machines they are on replicated
# storage (docs/scaling.md). The program is crates/natgw/out/natgw, or the one that NATGW names. The last line says what
# was seen.
set -euo pipefail
here=$(cd "$(dirname "${BASH_SOURCE[0]}")" && pwd)
# shellcheck source=adapters/bench.sh
. "$here/../adapters/bench.sh"
takes_no_words "$@"
needs curl
hosts=16

# plug MACHINE SWITCH ADDRESS: a cable from a machine to the bridge of a switch.
plug() {
  link "$1" "to-$2" "$2" "to-$1"
  on "$2" ip link set "to-$1" master br0
  on "$1" ip address add "$3/24" dev "to-$2"
}

# switch NAME: a namespace that forwards between its own devices and those on its bridge.
switch() {
  space "$1"
  on "$1" sysctl -qw net.ipv4.ip_forward=1
  on "$1" ip link add br0 type bridge
  on "$1" ip link set br0 up
}

# machine N: the two namespaces of a gateway, with 10.0.0.1N towards the edge and 10.1.0.1N towards the net.
machine() {
  local side
  for side in lan wan; do
    space "$1-$side"
    on "$1-$side" sysctl -qw net.ipv4.ip_forward=1
    tun_device "$1-$side" "natgw-$side"
  done
  plug "$1-lan" edge "10.0.0.1$1"
  plug "$1-wan" net "10.1.0.1$1"
  on "$1-lan" ip route add 192.168.0.0/16 via 10.0.0.1
  on "$1-lan" ip route add default dev natgw-lan
  on "$1-wan" ip route add default via 10.1.0.1
}

# gateway N MACHINE: starts natgw number N over its files on a machine, and the adapter. Their ids are in
# `gateway_N` and `carrier_N`.
gateway() {
  rm -f "$work/$1.sock"
  start_on "$2-lan" "$natgw" serve --inside 192.168.0.0/16 --external "203.0.113.$1" --dir "$work/state-$1" \
    --socket "$work/$1.sock" --connections 1000 --at "$(date +%s)" 2>>"$work/natgw.log"
  eval "gateway_$1=$last"
  : >"$work/adapter.log"
  python3 "$adapter" --socket "$work/$1.sock" --rules "$repository/examples/rules/home-router.nft" \
    --lan-netns "$bench-$2-lan" --wan-netns "$bench-$2-wan" 2>>"$work/adapter.log" &
  eval "carrier_$1=$!"
  started+=("$!")
  on "$2-wan" ip route add "203.0.113.$1/32" dev natgw-wan
  until_said "is loaded" 1
}

# The address that the far server sees of an inside host.
seen_of() {
  on host curl -s --max-time 5 --interface "192.168.1.$1" "http://$far/" || echo nothing
}

bench_begin
: >"$work/natgw.log"
mkdir "$work/state-1" "$work/state-2"
switch edge
switch net
space host
space far
link host eth0 edge to-host
on edge ip address add 192.168.0.1/16 dev to-host
for number in $(seq "$hosts"); do on host ip address add "192.168.1.$number/16" dev eth0; done
on host ip route add default via 192.168.0.1
link net to-far far eth0
on net ip address add 198.51.100.1/24 dev to-far
on far ip address add "$far/24" dev eth0
on far ip route add default via 198.51.100.1
on edge ip address add 10.0.0.1/24 dev br0
on net ip address add 10.1.0.1/24 dev br0
for number in 1 2 3; do machine $number; done

# One route, two next hops. Of a packet only the source address counts (fields 1: of the outer header), so that all
# connections of an inside host have one gateway, and one external address.
on edge sysctl -qw net.ipv4.fib_multipath_hash_policy=3 net.ipv4.fib_multipath_hash_fields=1
on edge ip route add default nexthop via 10.0.0.11 nexthop via 10.0.0.12
on net ip route add 203.0.113.1/32 via 10.1.0.11
on net ip route add 203.0.113.2/32 via 10.1.0.12

start_on far python3 -c '
import http.server
class Page(http.server.BaseHTTPRequestHandler):
    protocol_version = "HTTP/1.1"
    def do_GET(self):
        text = "%s:%d" % self.client_address if self.path == "/port" else self.client_address[0]
        self.send_response(200)
        self.send_header("Content-Length", str(len(text)))
        self.end_headers()
        self.wfile.write(text.encode())
    def log_message(self, *words):
        pass
http.server.ThreadingHTTPServer(("0.0.0.0", 80), Page).serve_forever()'
until on far ss -Hlnt "sport = :80" | grep -q .; do sleep 0.05; done
gateway 1 1
gateway 2 2

echo "which gateway an inside host goes through, asked twice"
declare -A count=()
well=1
second=
for number in $(seq "$hosts"); do
  first=$(seen_of "$number")
  again=$(seen_of "$number")
  [ "$first" = "$again" ] || well=0
  count[$first]=$((${count[$first]:-0} + 1))
  [ "$first" != 203.0.113.2 ] || second=$number
done
for address in "${!count[@]}"; do echo "${count[$address]} hosts by $address"; done
if [ "$well" != 1 ] || [ -z "$second" ] || [ "$((${count[203.0.113.1]:-0} + ${count[203.0.113.2]:-0}))" != "$hosts" ]; then
  echo "this was not as it ought to be: each host has one gateway, and each gateway has some" >&2
  exit 1
fi

echo "a connection of 192.168.1.$second, by gateway 2, which is lost"
start_on host python3 -c '
import http.client, os, sys, time
far, own, work = sys.argv[1:]
page = http.client.HTTPConnection(far, timeout=30, source_address=(own, 0))
def ask():
    page.request("GET", "/port")
    return page.getresponse().read().decode()
def keep(name, text):
    with open(f"{work}/{name}.part", "w") as file:
        file.write(text)
    os.rename(f"{work}/{name}.part", f"{work}/{name}")
keep("first", ask())
mine = page.sock
while not os.path.exists(f"{work}/again"):
    time.sleep(0.05)
keep("second", ask() if page.sock is mine else "another connection")' "$far" "192.168.1.$second" "$work"
client=$last
for _ in $(seq 200); do [ ! -e "$work/first" ] || break; sleep 0.05; done
# shellcheck disable=SC2154
kill -9 "$gateway_2" "$carrier_2"
wait "$gateway_2" "$carrier_2" 2>/dev/null || true
on 2-lan ip link set to-edge down
on 2-wan ip link set to-net down
start=$(date +%s.%N)

# The spare takes over: the files, the addresses that the routes name, and the news of where they are now.
on 3-lan ip address add 10.0.0.12/24 dev to-edge
on 3-wan ip address add 10.1.0.12/24 dev to-net
on edge ip neighbour flush dev br0
on net ip neighbour flush dev br0
gateway 2 3
took=$(python3 -c "import sys, time; print(f'{time.time() - float(sys.argv[1]):.1f}')" "$start")
touch "$work/again"
wait "$client" || true
before=$(cat "$work/first" 2>/dev/null || echo nothing)
after=$(cat "$work/second" 2>/dev/null || echo nothing)
echo "before: the server saw $before; the spare took over within $took s; after: $after"
other=$(seen_of "$second")
echo "a new connection of that host: $other"

if [ "$before" = "$after" ] && [ "$before" != nothing ] && [ "$other" = 203.0.113.2 ]; then
  echo "$hosts hosts by two gateways, each by one of them; gateway 2 was lost and taken over, and its connection lives on from $after"
else
  echo "this was not as it ought to be"
  exit 1
fi
