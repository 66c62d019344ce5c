#!/usr/bin/env bash
# The whole deployment on this machine alone, in the foreground: form, nginx, collector, store and pages on 127.0.0.1, no root, no service manager.
# A headless Chromium makes the first 100 reports by the form; then form and pages stay there for your own, until Ctrl-C.
#     examples/deployment/try.sh [FOLDER]        FOLDER keeps store and pages; without it they are removed at the end
# PORT (8470) is the port of nginx, and PORT + 1 that of the collector.
set -euo pipefail
cd "$(dirname "$0")"
here=$PWD
top=$(realpath ../..)
port=${PORT:-8470}
packages="nginx-light gunicorn python3-prometheus-client python3-selenium chromium chromium-driver"
PATH=$PATH:/usr/sbin
for program in nginx gunicorn chromium chromedriver; do
    command -v "$program" > /dev/null || { echo "$program isn't here: apt-get install --no-install-recommends $packages" >&2; exit 1; }
done
/usr/bin/python3 -c 'import prometheus_client, selenium' || { echo "apt-get install --no-install-recommends $packages" >&2; exit 1; }

for taken in "$port" "$((port + 1))"; do
    if (: < "/dev/tcp/127.0.0.1/$taken") 2> /dev/null; then echo "port $taken is taken: PORT=9470 $0" >&2; exit 1; fi
done

if [ $# -gt 0 ]; then mkdir -p "$1"; folder=$(realpath "$1"); else folder=$(mktemp -d); fi
children=()
finish() {
    trap - EXIT INT TERM
    for child in "${children[@]}"; do kill "$child" 2> /dev/null || true; done
    wait
    if [ $# -gt 0 ] && [ "$1" = drop ]; then rm -rf "$folder"; fi
}
if [ $# -gt 0 ]; then trap finish EXIT; else trap 'finish drop' EXIT; fi
trap 'exit 130' INT
trap 'exit 143' TERM

mkdir -p "$folder"/{store,pages,web,nginx}
cp web/*.html web/*.mjs web/*.css configuration.json "$folder/web/"
cp "$top"/bindings/web/{star_client.mjs,normal.mjs,star_client.wasm,star_client_32.wasm} "$folder/web/"
export STAR_STORE=$folder/store STAR_PAGES=$folder/pages STAR_CONFIGURATION=$folder/web/configuration.json PYTHONDONTWRITEBYTECODE=1
export STAR_TOOL=${STAR_TOOL:-$top/dist/x86_64-linux/star_tool}

gunicorn --worker-class gthread --workers 1 --threads 8 --graceful-timeout 5 --bind "127.0.0.1:$((port + 1))" --log-level warning \
    'collector:application()' &
children+=($!)
sed -e "s#FOLDER#$folder#g; s#127.0.0.1:PORT#127.0.0.1:$port#; s#COLLECTOR#127.0.0.1:$((port + 1))#" try_nginx.conf > "$folder/nginx/conf"
nginx -e "$folder/nginx/errors" -p "$folder/nginx" -c "$folder/nginx/conf" &
children+=($!)

address=http://127.0.0.1:$port
/usr/bin/python3 try_reports.py "$address/?trial" 100
/usr/bin/python3 epoch_report.py --preview
echo
echo "The form:   $address/?trial"
echo "The page:   $address/pages/preview.html      made anew when reports arrive; load it again"
echo "All weeks:  $address/pages/index.html"
echo "Metrics:    http://127.0.0.1:$((port + 1))/metrics"
echo "Files:      $folder"
echo "Ctrl-C ends all of it."
if [ -n "${DISPLAY:-}${WAYLAND_DISPLAY:-}" ] && command -v xdg-open > /dev/null; then
    xdg-open "$address/pages/preview.html" > /dev/null 2>&1 || true
fi

counted() { /usr/bin/python3 -c 'import os, store; at = os.environ["STAR_STORE"]; print([store.count(at, epoch) for epoch in store.epochs(at)])'; }
last=$(counted)
while kill -0 "${children[@]}" 2> /dev/null; do
    sleep 3 & wait $! || true
    now=$(counted)
    if [ "$now" != "$last" ]; then /usr/bin/python3 epoch_report.py --preview || true; last=$now; fi
done
echo "the collector or nginx has ended" >&2
exit 1
