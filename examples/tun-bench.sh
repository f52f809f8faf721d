#!/usr/bin/env bash
# natgw between real hosts, on a machine without any of them: an inside host, the gateway and a web server outside are
# network namespaces of this script's own, and natgw tun carries the packets between them. It fetches a page through natgw,
# shows the sessions that there are then, and takes all down again.
#
#   sudo examples/tun-bench.sh          as told above
#   sudo examples/tun-bench.sh --stay   leaves it up, and says how to look around, until Enter is pressed
#
# Root, iproute2, curl and python3 are needed. The program is crates/natgw/out/natgw, or the one that NATGW names.
set -euo pipefail
here=$(cd "$(dirname "${BASH_SOURCE[0]}")" && pwd)
# shellcheck source=adapters/bench.sh
. "$here/../adapters/bench.sh"
stay=
case ${1:-} in
  '') ;;
  --stay) stay=1 ;;
  *) tell_help >&2; exit 2 ;;
esac
needs curl
WAY=tun
bench_up
cp "$repository/examples/rules/home-router.nft" "$work/rules.nft"
start_on far python3 -c '
import http.server
class Page(http.server.BaseHTTPRequestHandler):
    def do_GET(self):
        self.send_response(200)
        self.end_headers()
        self.wfile.write(f"a page for {self.client_address[0]}, port {self.client_address[1]}\n".encode())
    def log_message(self, *words):
        pass
http.server.ThreadingHTTPServer(("0.0.0.0", 80), Page).serve_forever()'
until on far ss -Hlnt "sport = :80" | grep -q .; do sleep 0.05; done

start_natgw
start_adapter
echo "natgw runs between $near and $far: $(cat "$work/adapter.log")"
echo "$near asks for http://$far/ and gets:"
on one curl -s --max-time 5 "http://$far/"
if [ "$stay" ]; then
  echo "try: ip netns exec $bench-one curl http://$far/    ip netns exec $bench-one bash    cat $work/natgw.prom"
  read -rp "Enter takes all down again: "
fi
kill_natgw
echo "natgw is killed; its files still have the sessions:"
"$natgw" show "${sides[@]}" --dir "$work/state"
