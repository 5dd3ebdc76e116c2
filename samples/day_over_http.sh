#!/bin/sh
# A day of the office over HTTP: a new register in a folder of its own, served for exactly as many exchanges as are sent here
# with curl. Each reply is compared with what the rules give (the moments, which are the clock's, stand as T); says `ok` and
# ends with status 0, or tells the first difference and ends with 1.
#
#     samples/day_over_http.sh [PORT]
#
# The port is 8420 where none is said. The first run of ./keyreg proves and builds it, which takes about half an hour; KEYREG
# names another program.
set -u
keyreg=${KEYREG:-$(dirname "$0")/../keyreg}
port=${1:-8420}
place=http://127.0.0.1:$port
exchanges=24
folder=$(mktemp -d)
served=
end() {
    status=$1
    [ -z "$served" ] || kill "$served" 2>/dev/null
    rm -rf "$folder"
    exit "$status"
}
trap 'end 1' HUP INT TERM

fail() {
    echo "day_over_http: $*" >&2
    end 1
}

# The status and the body of a reply, with T for each moment of the clock: they have ten digits, and no other number here has.
ask() {
    curl --silent --noproxy '*' --max-time 60 --write-out ' %{http_code}' "$@" |
        sed -e 's/^\(.*\) \([0-9]*\)$/\2 \1/' -e 's/:[0-9]\{10\}\([,}]\)/:T\1/g'
}

sent=0
compare() {
    sent=$((sent + 1))
    [ "$2" = "$3" ] || fail "exchange $sent, $1
    is        $2
    should be $3"
}

# get PATH REPLY
get() {
    compare "GET $1" "$(ask "$place$1")" "$2"
}

# post CALLER NUMBER BODY REPLY
post() {
    compare "$1 $2 $3" "$(ask --header "Caller: $1" --header "Request-Number: $2" --data-binary "$3" "$place/requests")" "$4"
}

"$keyreg" init --file "$folder/office.keyreg" || fail "init ended with status $?"
"$keyreg" serve --file "$folder/office.keyreg" --port "$port" --exchanges "$exchanges" &
served=$!

# Nothing is served before the file is open and the port bound: the first exchange is tried until then.
tries=0
until first=$(ask "$place/keys/1"); [ "${first#000}" = "$first" ]; do
    tries=$((tries + 1))
    kill -0 "$served" 2>/dev/null || fail "serve ended"
    [ "$tries" -lt 120 ] || fail "nothing is served at port $port"
    sleep 0.5 2>/dev/null || sleep 1
done
compare "GET /keys/1" "$first" '404 {"name":"UnknownKey","refused":4}'

# Morning: a key of the storage team with the dates that its type's usage periods give, shown with its usage, and one for
# which nothing is said yet.
post alice.meyer 1 '{"kind":"register","type":"data-encryption","owner":"storage-team","activation":0,"protect_stop":null,"deactivation":null,"purpose":"old tapes, site A"}' \
    '200 {"key":1,"moment":T,"state":"Deactivated"}'
get /keys/1 '200 {"activation":0,"approvals":[],"compromised":null,"custodians":[],"deactivation":157766400,"destroyed":null,"initial":T,"need":2,"number":1,"occurrence":null,"owner":"storage-team","protect_stop":63072000,"purpose":"old tapes, site A","state":"Deactivated","type":"data-encryption"}'
get /keys/1/usage '200 {"process":"special","protect":false}'
post alice.meyer 2 '{"kind":"register","type":"master","owner":"key-office","activation":null,"protect_stop":null,"deactivation":null,"purpose":"root of the \"blue\" keys"}' \
    '200 {"key":2,"moment":T,"state":"Pre-Active"}'
# Sent again, for its reply got lost: it acts once.
post alice.meyer 2 '{"kind":"register","type":"master","owner":"key-office","activation":null,"protect_stop":null,"deactivation":null,"purpose":"root of the \"blue\" keys"}' \
    '200 {"key":2,"moment":T,"state":"Pre-Active"}'
post alice.meyer 2 '{"kind":"advance"}' '409 {"name":"RequestReused","refused":2}'
post alice.meyer 3 '{"kind":"register","type":"master","owner":"key-office","activation":0,"protect_stop":31536001,"deactivation":null,"purpose":"too long"}' \
    '409 {"limit":31536000,"name":"PeriodTooLong","refused":10}'

# Noon: the root goes into use.
post bruno.keller 1 '{"kind":"activate","key":2}' '409 {"name":"NotOwner","refused":5}'
post key-office 1 '{"kind":"activate","key":2}' '200 {"key":2,"moment":T,"state":"Active"}'
get /keys/2/usage '200 {"process":"yes","protect":true}'
post key-office 2 '{"kind":"destroy","key":2}' '409 {"name":"WrongState","refused":7,"state":"Active"}'

# Afternoon: the key of the old tapes is destroyed, with the approvals of two custodians.
post storage-team 1 '{"kind":"add-custodian","key":1,"name":"cat"}' '200 {"key":1,"moment":T,"state":"Deactivated"}'
post storage-team 2 '{"kind":"add-custodian","key":1,"name":"dan"}' '200 {"key":1,"moment":T,"state":"Deactivated"}'
post cat 1 '{"kind":"approve","key":1}' '200 {"key":1,"moment":T,"state":"Deactivated"}'
post storage-team 3 '{"kind":"destroy","key":1}' '409 {"have":1,"name":"ApprovalsMissing","need":2,"refused":18}'
post dan 1 '{"kind":"approve","key":1}' '200 {"key":1,"moment":T,"state":"Deactivated"}'
post storage-team 3 '{"kind":"destroy","key":1}' '200 {"key":1,"moment":T,"state":"Destroyed"}'
get /keys/1 '200 {"activation":0,"approvals":["cat","dan"],"compromised":null,"custodians":["cat","dan"],"deactivation":157766400,"destroyed":T,"initial":T,"need":2,"number":1,"occurrence":null,"owner":"storage-team","protect_stop":63072000,"purpose":"old tapes, site A","state":"Destroyed","type":"data-encryption"}'

# Evening: a clerk's slips, and the time moves on.
post clock.job 01 '{"kind":"advance"}' '400 {"name":"BadLine","refused":1}'
compare "GET /requests" "$(ask "$place/requests")" '405 {"name":"MethodNotAllowed"}'
get '/keys/2?all' '404 {"name":"NoRoute"}'
compare "a POST without a length" "$(ask --request POST "$place/requests")" '411 {"name":"LengthRequired"}'
post clock.job 1 '{"kind":"advance"}' '200 {"key":0,"moment":T,"state":null}'

# It was asked to serve so many exchanges and no more.
[ "$sent" -eq "$exchanges" ] || fail "$sent exchanges were sent, not $exchanges"
wait "$served"
status=$?
served=
[ "$status" -eq 0 ] || fail "serve ended with status $status"
echo ok
end 0
