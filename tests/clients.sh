#!/usr/bin/env bash
# Other people's clients against `avrogate serve`, unchanged: curl, and Debian's python3-requests, python3-confluent-kafka
# (both of its registry clients, and its serializers) and golang-github-lensesio-schema-registry-dev (with goavro). Each
# call of the profile by each of them, their messages by way of /transcode, and each call that the profile leaves out with
# the refusal that names it. A line for each check: `works`, `left out` (such a call, and its refusal) or `FAILED`; then how
# many there are of each. What is missing of their packages is installed with apt-get, which needs root. The gate runs it.
# Usage: tests/clients.sh [PROGRAM]   (crates/avrogate/out/avrogate if it is left out)
set -euo pipefail
here=$(dirname "$(realpath "$0")")
program=$(realpath "${1:-$here/../crates/avrogate/out/avrogate}")
. "$here/packages.sh"
packages curl python3-requests python3-avro python3-confluent-kafka golang-go golang-github-lensesio-schema-registry-dev golang-github-linkedin-goavro-dev
folder=$(mktemp -d)
server=
trap '[ -z "$server" ] || kill "$server" 2>/dev/null || true; rm -rf "$folder"' EXIT
lines=$folder/lines
: >"$lines"

: >"$folder/told"
"$program" serve --port 0 --request-timeout 300 >"$folder/told" 2>"$folder/err" & server=$!
port=
for _ in $(seq 600); do
  port=$(sed -n 's/^listening //p' "$folder/told")
  [ -z "$port" ] && kill -0 "$server" 2>/dev/null || break
  sleep 0.1
done
[ -n "$port" ] || { echo "the server did not say where it listens: $(cat "$folder/told" "$folder/err")"; exit 1; }
url=http://127.0.0.1:$port

verdict() { if [ "$2" = "$3" ]; then echo "works $1"; else echo "FAILED $1: ${2:0:300}, wanted ${3:0:300}"; fi >>"$lines"; }
ask() { curl -sS --max-time 300 -o "$folder/body" -w '%{http_code} %{content_type} ' "$@" 2>&1; }
# asks NAME STATUS BODY PATH [WORD ..]: what curl is answered
asks() { verdict "curl: $1" "$(ask "${@:5}" "$url$4")$(cat "$folder/body")" "$2 application/vnd.schemaregistry.v1+json $3"; }
# rewrites NAME ID MESSAGE WANTED: the bytes that curl is answered, of files
rewrites() {
  local told
  told=$(ask --data-binary "@$3" -H 'content-type: application/octet-stream' "$url/transcode/$2")
  verdict "curl: $1" "$told$(cmp "$folder/body" "$4" 2>&1 || true)" '200 application/octet-stream '
}
of() { printf '{"schema":"%s"}' "$1"; }

# curl comes first, so that it knows which ids a new registry gives
text='{\"fields\":[{\"name\":\"a\",\"type\":\"long\"},{\"name\":\"b\",\"type\":\"string\"}],\"name\":\"T\",\"type\":\"record\"}'
worse=${text/\}],/\},{\\\"name\\\":\\\"c\\\",\\\"type\\\":\\\"int\\\"\}],}
better=${text/\}],/\},{\\\"default\\\":0,\\\"name\\\":\\\"c\\\",\\\"type\\\":\\\"int\\\"\}],}
json='content-type: application/vnd.schemaregistry.v1+json'
asks 'GET /subjects of a new registry' 200 '[]' /subjects
asks 'GET /config' 200 '{"compatibilityLevel":"BACKWARD"}' /config
asks 'POST /subjects/{s}/versions' 200 '{"id":1}' /subjects/curl/versions -d "$(of "$text")" -H "$json"
asks 'POST /subjects/{s}/versions again' 200 '{"id":1}' /subjects/curl/versions -d "$(of "$text")" -H "$json"
asks 'POST /subjects/{s}/versions, incompatible' 409 '{"error_code":409,"message":"incompatible schema"}' /subjects/curl/versions -d "$(of "$worse")"
asks 'POST /compatibility' 200 '{"is_compatible":false}' /compatibility/subjects/curl/versions/latest -d "$(of "$worse")"
asks 'POST /compatibility with a version' 200 '{"is_compatible":true}' /compatibility/subjects/curl/versions/1 -d "$(of "$better")"
asks 'POST /subjects/{s}/versions, a next version' 200 '{"id":2}' /subjects/curl/versions -d "$(of "$better")"
asks 'GET /subjects' 200 '["curl"]' /subjects
asks 'GET /subjects/{s}/versions' 200 '[1,2]' /subjects/curl/versions
asks 'GET /subjects/{s}/versions/{v}' 200 '{"id":1,"schema":"'"$text"'","subject":"curl","version":1}' /subjects/curl/versions/1
asks 'GET /subjects/{s}/versions/latest' 200 '{"id":2,"schema":"'"$better"'","subject":"curl","version":2}' /subjects/curl/versions/latest
asks 'POST /subjects/{s}' 200 '{"id":1,"schema":"'"$text"'","subject":"curl","version":1}' /subjects/curl -d "$(of "$text")"
asks 'GET /schemas/ids/{id}' 200 '{"schema":"'"$text"'"}' /schemas/ids/1
asks 'PUT /config/{s}' 200 '{"compatibility":"NONE"}' /config/curl -X PUT -d '{"compatibility":"NONE"}'
asks 'GET /config/{s}' 200 '{"compatibilityLevel":"NONE"}' /config/curl
asks 'PUT /config' 200 '{"compatibility":"FULL"}' /config -X PUT -d '{"compatibility":"FULL"}'
asks 'PUT /config again' 200 '{"compatibility":"BACKWARD"}' /config -X PUT -d '{"compatibility":"BACKWARD"}'
asks 'no such subject' 404 '{"error_code":40401,"message":"subject not found"}' /subjects/none/versions
asks 'no such version' 404 '{"error_code":40402,"message":"version not found"}' /subjects/curl/versions/3
asks 'no such schema' 404 '{"error_code":40403,"message":"schema not found"}' /schemas/ids/3
asks 'no version' 422 '{"error_code":42202,"message":"invalid version"}' /subjects/curl/versions/first
asks 'no level' 422 '{"error_code":42203,"message":"invalid level"}' /config -X PUT -d '{"compatibility":"SOME"}'
asks 'no schema' 422 '{"error_code":42201,"message":"invalid schema: BadUnion"}' /subjects/curl/versions -d "$(of '[\"int\",\"int\"]')"
asks 'no subject' 422 '{"error_code":42261,"message":"invalid subject"}' /subjects/a+b/versions
asks 'no route' 404 '{"error_code":404,"message":"no such route"}' /nothing
asks 'a method that a route has not' 405 '{"error_code":405,"message":"method not allowed"}' /subjects -X POST
printf '\0\0\0\0\001\066\006foo' >"$folder/message"
printf '\0\0\0\0\002\066\006foo\0' >"$folder/wanted"
rewrites 'POST /transcode/{id}' 2 "$folder/message" "$folder/wanted"
letters() { head -c 2000000 /dev/zero | tr '\0' x; }
{ printf '\0\0\0\0\001\066\200\222\364\001'; letters; } >"$folder/message"
{ printf '\0\0\0\0\002\066\200\222\364\001'; letters; printf '\0'; } >"$folder/wanted"
rewrites 'POST /transcode/{id} of 2 MB, for which curl waits for "100 Continue" a second and gets none' 2 "$folder/message" "$folder/wanted"

PYTHONDONTWRITEBYTECODE=1 timeout 1200 /usr/bin/python3 "$here/clients/clients.py" "$url" >>"$lines" || echo "FAILED clients.py ended with status $?" >>"$lines"
GO111MODULE=off GOPATH=/usr/share/gocode GOCACHE=$folder/cache go build -o "$folder/main" "$here/clients/main.go" &&
  timeout 1200 "$folder/main" "$url" >>"$lines" || echo "FAILED main.go ended with status $?" >>"$lines"
kill -0 "$server" 2>/dev/null && echo 'works the server still runs' >>"$lines" || echo "FAILED the server ended: $(cat "$folder/err")" >>"$lines"
grep -v '^left out ' "$lines" || true
grep '^left out ' "$lines" || true
lines_of() { grep -c "^$1 " "$lines" || true; }
failed=$(lines_of FAILED)
echo "$(lines_of works) work, $(lines_of 'left out') left out, $failed failed"
[ "$failed" = 0 ]
