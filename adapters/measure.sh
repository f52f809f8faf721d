#!/usr/bin/env bash
# Throughput and delay through natgw tun and through natgw by tun.py, beside the kernel's own NAT in the same
# namespaces.
#
#   adapters/measure.sh                       all ways
#   adapters/measure.sh --ways kernel,tun     these ways in this order; one may come more than once
#
# The ways are adapter-no-offload, adapter, tun-no-offload, tun-steering, tun and kernel. Root, iproute2, iperf3,
# nftables and python3 are needed. NATGW names the program; SECONDS_EACH how long each run takes.
set -euo pipefail
here=$(cd "$(dirname "${BASH_SOURCE[0]}")" && pwd)
# shellcheck source=adapters/bench.sh
. "$here/bench.sh"
ways='adapter-no-offload,adapter,tun-no-offload,tun-steering,tun,kernel'
case "$#${1-}" in
  0) ;;
  2--ways) ways=$2 ;;
  *) tell_help >&2; exit 2 ;;
esac
needs iperf3 nft
each=${SECONDS_EACH:-10}

# mbits OPTIONS..: megabits a second that arrive, by iperf3 from one to far.
mbits() {
  on one iperf3 -c "$far" -t "$each" -J "$@" >"$work/iperf.json"
  python3 -c '
import json, sys
end = json.load(open(sys.argv[1]))["end"]
found = end.get("sum_received") or end["sum"]
print(round(found["bits_per_second"] / 1e6))' "$work/iperf.json"
}

# Datagrams of 64 bytes a second that arrive, where as many are sent as one process can.
datagrams() {
  on one iperf3 -c "$far" -t "$each" -u -b 0 -l 64 -J >"$work/iperf.json"
  python3 -c '
import json, sys
end = json.load(open(sys.argv[1]))["end"]["sum"]
print(round((end["packets"] - end["lost_packets"]) / end["seconds"]))' "$work/iperf.json"
}

# The time of one datagram there and back: the median and the 99th of a hundred, in microseconds, of 30,000.
delays() {
  on one python3 -c '
import socket, sys, time
end = socket.socket(socket.AF_INET, socket.SOCK_DGRAM)
end.settimeout(1)
end.connect((sys.argv[1], 53))
took = []
for _ in range(30_000):
    start = time.perf_counter()
    end.send(b"x" * 64)
    end.recv(100)
    took.append(time.perf_counter() - start)
took = sorted(took[100:])
print(round(1e6 * took[len(took) // 2]), round(1e6 * took[len(took) * 99 // 100]))' "$far"
}

# used ID..: seconds of processor time of each process so far, in user and in system mode.
used() {
  python3 -c '
import os, sys
for number in sys.argv[1:]:
    with open(f"/proc/{number}/stat") as file:
        words = file.read().rsplit(") ", 1)[1].split()
    print(*(int(words[i]) / os.sysconf("SC_CLK_TCK") for i in (11, 12)))' "$@"
}

# all NAME: one line of the table.
all() {
  local up down small median slow
  up=$(mbits)
  down=$(mbits -R)
  small=$(datagrams)
  read -r median slow < <(delays)
  echo "| $1 | $up Mbit/s | $down Mbit/s | $small /s | $median µs | $slow µs |"
}

bench_up
start_on far python3 -c '
import socket
end = socket.socket(socket.AF_INET, socket.SOCK_DGRAM)
end.bind(("0.0.0.0", 53))
while True:
    data, peer = end.recvfrom(100)
    end.sendto(data, peer)'
start_on far iperf3 -s >/dev/null
until on far ss -Hlntu | grep -q :5201 && on far ss -Hlntu | grep -q :53; do sleep 0.05; done

cp "$repository/examples/rules/home-router.nft" "$work/rules.nft"
echo "$(nproc) processors, Linux $(uname -r), $(python3 --version); $each seconds a run"
echo
echo "| Way | TCP out | TCP in | datagrams of 64 bytes | there and back, median | 99 of 100 are below |"
echo "|---|---|---|---|---|---|"

# stop ID: ends a process of the bench.
stop() {
  kill -9 "$1" 2>/dev/null || true
  wait "$1" 2>/dev/null || true
}

# by NAME WAY [OPTION]: the line of a way with this option, and the processor time that TCP out takes.
by() {
  local name=$1 before after ids
  way=$2
  shift 2
  of_devices=("$@")
  : >"$work/adapter.log"
  start_natgw
  start_adapter
  all "$name"
  ids=("$gateway")
  [ "$way" = tun ] || ids=("$carrier" "$gateway")
  before=$(used "${ids[@]}")
  mbits >/dev/null
  after=$(used "${ids[@]}")
  paste <(echo "$before") <(echo "$after") | awk -v name="$name" -v each="$each" \
    '{ own += $3 - $1; kernel += $4 - $2 } END { printf "%s: %.1f s of its own and %.1f s in the kernel, of %d s TCP out\n", name, own, kernel, each }' \
    >>"$work/used"
  for id in "${ids[@]}"; do stop "$id"; done
}

# The kernel's own NAT: the two namespaces have a cable, and the external address is that of lan's end.
by_kernel() {
  on lan ip route replace default via 203.0.113.254
  on wan ip route replace "$external/32" dev downlink
  on lan nft -f - <<RULES
table ip nat { chain post { type nat hook postrouting priority srcnat; oifname "uplink" masquerade; }; }
table ip filter { chain forward { type filter hook forward priority filter; policy drop;
  ct state established,related accept; iifname "br0" accept; }; }
RULES
  all "the kernel's NAT"
  on lan nft flush ruleset
  on lan ip route replace default dev natgw-lan
  on wan ip route replace "$external/32" dev natgw-wan
}

link lan uplink wan downlink
on lan ip address add "$external/24" dev uplink
on wan ip address add 203.0.113.254/24 dev downlink
: >"$work/used"
for name in ${ways//,/ }; do
  case $name in
    adapter-no-offload) by "natgw by tun.py, no offloads" adapter --no-offload ;;
    adapter) by "natgw by tun.py" adapter ;;
    tun-no-offload) by "natgw tun, no offloads" tun --no-offload ;;
    tun-steering) by "natgw tun, steering" tun --steering ;;
    tun) by "natgw tun" tun ;;
    kernel) by_kernel ;;
    *) echo "$0: there is no way $name" >&2; exit 2 ;;
  esac
done
echo
cat "$work/used"
