#!/usr/bin/env bash
# A download through natgw, which is killed with signal 9 three times in the middle and started again over the same
# directory: the download has to end with the right checksum, on the connection that it began with. Then the same with
# the directory emptied before the start, for contrast: that connection is lost.
#
#   examples/pull-the-plug-download.sh                 300 megabytes
#   examples/pull-the-plug-download.sh --megabytes N   that many
#
# natgw is natgw tun, or with WAY=adapter natgw serve and tun.py. Root, iproute2, curl and python3 are needed. Client,
# gateway and server are network namespaces of the script's own; nothing stays behind. The program is crates/natgw/out/natgw, or the one that NATGW names. The last line says what was
# seen; the status is 0 where it was as told above.
set -euo pipefail
here=$(cd "$(dirname "${BASH_SOURCE[0]}")" && pwd)
# shellcheck source=adapters/bench.sh
. "$here/../adapters/bench.sh"

megabytes=300
case ${1:-} in
  '') ;;
  --megabytes) megabytes=${2:?} ;;
  *) tell_help >&2; exit 2 ;;
esac
needs curl
bench_up
size=$((megabytes * 1000000))

# A web server that sends the file at whatever path, and notes the endpoint that asked for it.
start_on far python3 -c '
import http.server, shutil, sys
path, noted = sys.argv[1:]
class Page(http.server.BaseHTTPRequestHandler):
    def do_GET(self):
        with open(noted, "a") as file:
            file.write("%s:%d\n" % self.client_address)
        with open(path, "rb") as file:
            self.send_response(200)
            self.end_headers()
            try:
                shutil.copyfileobj(file, self.wfile, 1 << 16)
            except OSError:
                pass
    def log_message(self, *words):
        pass
http.server.ThreadingHTTPServer(("0.0.0.0", 80), Page).serve_forever()' "$work/sent" "$work/asked"
head -c "$size" /dev/urandom >"$work/sent"
wanted=$(sha256sum <"$work/sent")
until on far ss -Hlnt "sport = :80" | grep -q .; do sleep 0.05; done

has() {
  stat -c %s "$work/got" 2>/dev/null || echo 0
}

# Waits until the download has come so far, in bytes, or has ended.
until_got() {
  while [ "$(has)" -lt "$1" ] && kill -0 "$download" 2>/dev/null; do sleep 0.01; done
}

start_download() {
  rm -f "$work/got" "$work/asked"
  on one curl -s -o "$work/got" --speed-limit 1 --speed-time 10 "http://$far/" &
  download=$!
  started+=("$download")
}

# The end of the download: its status, and how many connections the server has seen.
end_download() {
  curl_status=0
  wait "$download" || curl_status=$?
  connections=$(wc -l <"$work/asked")
}

cp "$repository/examples/rules/home-router.nft" "$work/rules.nft"
start_natgw
start_adapter

echo "a download of $megabytes megabytes by $near from $far, through natgw"
start=$(date +%s.%N)
start_download
for quarter in 1 2 3; do
  until_got $((size * quarter / 4))
  kill_natgw
  echo "natgw killed with signal 9, $(has) bytes are there"
  sleep 0.3
  start_natgw
done
end_download
found=$(sha256sum <"$work/got")
took=$(python3 -c "import sys, time; print(f'{time.time() - float(sys.argv[1]):.1f}')" "$start")
if [ "$curl_status" = 0 ] && [ "$found" = "$wanted" ] && [ "$connections" = 1 ]; then
  kept="with the right checksum"
else
  kept="WRONGLY: status $curl_status, $connections connections, $(has) bytes"
fi
from=$(head -n 1 "$work/asked")
echo "the download ended after $took seconds, $kept; the server saw $connections connection, from $from"

echo "the same, and the directory is emptied before natgw starts again"
start_download
until_got $((size / 4))
kill_natgw
rm -f "$work"/state/natgw.?
start_natgw
[ "$way" = tun ] || kill -HUP "$carrier"
echo "natgw killed with signal 9, $(has) bytes are there; its files are gone"
end_download
lost=$(has)
echo "curl ended with status $curl_status, $lost of $size bytes are there"

if [ "$kept" = "with the right checksum" ] && [ "$curl_status" != 0 ] && [ "$lost" -lt "$size" ]; then
  echo "pulled the plug three times: one connection, $from, and every byte is right; without the files the connection is lost"
else
  echo "this was not as it ought to be"
  exit 1
fi
