#!/usr/bin/env bash
# From nothing to two teams that share: a store, organisations, persons, a community and a group, the report phishing.json,
# and what its source, a partner and a stranger are served of it.
#
#     docs/examples/circle.sh [PORT]
#
# Needs: curl and jq. The store is made in a new folder, which is removed at the end. PROGRAM is the program that is run, by
# default that of `./iodef-hub --look`: the proved one if it is built.
set -euo pipefail
top=$(cd "$(dirname "$0")/../.." && pwd)
port=${1:-18080}
folder=$(mktemp -d)
hub=http://127.0.0.1:$port
server=
trap 'kill $server 2>/dev/null || true; rm -rf "$folder"' EXIT
stop() { printf 'circle.sh: %s\n' "$*" >&2; exit 1; }
for command in curl jq; do command -v $command >/dev/null || stop "the command $command is wanted"; done
program=("$top/iodef-hub" --look)
if [ -n "${PROGRAM-}" ]; then program=("$PROGRAM"); fi

digest() { printf %s "$1" | sha256sum | cut -d' ' -f1; }

# ask KEY METHOD PATH [curl's words]: one request by the person with this key; the hub's answer, whatever its status is
ask() {
    local key=$1 method=$2 path=$3
    shift 3
    curl -sS -X "$method" -H "Authorization: Bearer $key" "$@" "$hub$path"
    echo
}

say() { printf '\n# %s\n' "$*"; }

say "The store, with the hub's own organisation and its administrator"
"${program[@]}" init "$folder/hub.db" Hub "$(digest admin-key)"
"${program[@]}" serve "$folder/hub.db" "$port" 1000 >"$folder/listening" &
server=$!
until [ -s "$folder/listening" ]; do
    kill -0 $server 2>/dev/null || stop "the hub ended; if it said ListenFailed, give a free port: circle.sh PORT"
    sleep 0.1
done

say "Three organisations: 2 posts, 3 is its partner, 4 is a stranger"
for name in Bank Telco University; do ask admin-key POST /orgs -d "name=$name"; done

say "A person in each"
ask admin-key POST /persons -d "org=2&name=Ada&role=coordinator&key=$(digest bank-key)"
ask admin-key POST /persons -d "org=3&name=Ben&role=coordinator&key=$(digest telco-key)"
ask admin-key POST /persons -d "org=4&name=Cleo&role=reader&key=$(digest university-key)"

say "A community of the bank and the telco"
ask admin-key POST /communities -d "name=payments"
ask admin-key POST /communities/1/join -d "org=2"
ask admin-key POST /communities/1/join -d "org=3"

say "A sharing group of the bank's, with the telco in it"
ask bank-key POST /groups --data-urlencode "name=phishing" --data-urlencode "releasability=members only"
ask bank-key POST /groups/1/add -d "org=3&extend=0"

say "The bank posts its report to everybody in the hub (level 3), the second EventData to the group alone (level 4)"
ask bank-key POST '/incidents?level=3&gate=4:1:/Incident/0/EventData/1' --data-binary "@$top/docs/examples/phishing.json"

say "What the bank is served: all of it"
ask bank-key GET /incidents/1 | jq -c '{classes, withheld}'

say "What the telco is served: what is GREEN or CLEAR; each part that is withheld is told with its rule"
ask telco-key GET /incidents/1 | jq '{classes, withheld}'

say "What the university is served: what is CLEAR; of a report that isn't there, what is told of one in which it may see nothing"
ask university-key GET /incidents/1 | jq -c '{classes, withheld}'
ask university-key GET /incidents/999

say "The bank permits the telco to read the mailboxes that were opened"
ask bank-key POST /incidents/1/grant --data-urlencode "revision=1" --data-urlencode "path=/Incident/0/EventData/1" -d "org=3"
ask telco-key GET /incidents/1 | jq -c '.document.Incident[0].EventData[1]'

say "The group is switched off: what was for it is withheld as G4X"
ask bank-key POST /groups/1/active -d "active=0"
ask telco-key GET /incidents/1 | jq -c '.withheld'

say "The administrator asks why the university isn't shown the mailboxes"
ask admin-key GET '/explain?person=4&incident=1&path=/Incident/0/EventData/1' | jq -r .trace
