# shellcheck shell=bash
# What checks/package/in_systemd.py has a booted systemd do, as root, with the package installed. Each `holds NAME
# COMMAND..` is a line of what it tells. Its words are the parts that are tried: units, accidents.
PATH=/usr/sbin:/usr/bin:/sbin:/bin
export DEBIAN_FRONTEND=noninteractive
parts=" $* "
holds() {
    local name=$1
    shift
    if "$@" >/tmp/told 2>&1; then echo "ok $name"; else echo "FAILED $name: $(tail -c 600 /tmp/told)"; fi
}
# until SECONDS COMMAND..: whether it comes to hold.
until_holds() { local late=$((SECONDS + $1)); shift; until "$@"; do ((SECONDS < late)) || return 1; sleep 0.2; done; }
gets() { [ "$(curl -s -m 20 -o /dev/null -w '%{http_code}' "http://127.0.0.1:$1/keys/1")" = "$2" ]; }
mode_is() { [ "$(stat -c '%U %a' "$1")" = "$2" ] || { stat -c '%n %U %a' "$1"; return 1; }; }
state_is() { [ "$(systemctl is-active "$1")" = "$2" ]; }
fails() { ! "$@"; }
# typed HEADING PLACE [EDIT [INPUT]]: types a block of OPERATING by its heading and its place there, edited by sed.
typed() {
    sed -e "${3:-}" "/blocks/$1/$2.sh" >/tmp/block.sh || { echo "FAILED no block $2 of $1"; return; }
    bash /tmp/block.sh >/tmp/typed 2>&1 <"${4:-/dev/null}"
}
# head_typed UNIT: types the first commands at the head of a unit.
head_typed() {
    sed -n '/^#     /,/^#$/p' "/usr/lib/systemd/system/$1.service" | sed '/^#$/q' | sed -n 's/^#     //p' >/tmp/block.sh
    bash /tmp/block.sh >/tmp/typed 2>&1 </dev/null
}

# ---- an office is set up whole, by the pages alone, where nothing is that they have a person install
named=(curl nginx openssl python3 sqlite3)
holds "nothing is there that the pages name" fails command -v "${named[@]}"
head_typed keyreg
holds "the service is up" until_holds 60 state_is keyreg active
echo wonder-land >/tmp/password
typed the-desk 1 "" /tmp/password
cp /tmp/typed /tmp/desk_typed
head_typed keyreg-follow
systemctl start keyreg-follow
for unit in list advance nightly follow; do
    ended_well() {
        local exit
        exit=$(systemctl show -p ExecMainExitTimestamp --value "keyreg-$unit")
        if [ -z "$exit" ] || [ "$(systemctl show -p Result --value "keyreg-$unit")" != success ]; then
            systemctl status --no-pager "keyreg-$unit"
            return 1
        fi
    }
    holds "set up: keyreg-$unit was active once, and ended well" ended_well
    holds "set up: keyreg-$unit.timer goes on" state_is keyreg-$unit.timer active
done
holds "set up: the block ends with no unit that failed" grep -q '^0 loaded units listed' /tmp/desk_typed
holds "set up: nothing failed" sh -c 'systemctl list-units "keyreg*" --failed | grep -q "^0 loaded units listed"'
# asks USER PASSWORD PATH: the status that nginx answers.
asks() {
    curl -s -o /tmp/answer -w '%{http_code}' --user "$1:$2" -H 'Host: keyreg.example' "http://127.0.0.1:8421$3"
}
answers() { [ "$(asks "$1" "$2" "$3")" = "$4" ] || { cat /tmp/answer /tmp/desk_typed; return 1; }; }
holds "set up: the desk serves" until_holds 10 answers alice.meyer wonder-land / 200
holds "set up: it serves the list" answers alice.meyer wonder-land /list.json 200
holds "set up: which is one" grep -q '"form":2' /tmp/answer
history=/history/$(sed 's/.*"history":"\([^"]*\)".*/\1/' /tmp/answer)/index.json
holds "set up: it serves the history" answers alice.meyer wonder-land "$history" 200
holds "set up: to users alone" answers alice.meyer another "$history" 401
holds "set up: another password is refused" answers alice.meyer another /list.json 401
set_to() { echo "$2" | /usr/share/keyreg/users.py set "$1"; }
holds "a password is changed" set_to alice.meyer other
holds "the old one is refused" answers alice.meyer wonder-land /me 401
holds "the new one is taken" answers alice.meyer other /me 200
holds "a user comes" set_to office desk
holds "he is taken" answers office desk /me 200
holds "a user goes" /usr/share/keyreg/users.py remove office
holds "he is refused" answers office desk /me 401
holds "the passwords are root's and nginx's alone" [ "$(stat -c '%U:%G %a' /etc/nginx/keyreg.users)" = "root:www-data 640" ]
holds "no other page is served beside the desk" fails curl -s -m 5 http://127.0.0.1/

# ---- the same by TLS, by the head of nginx-keyreg.conf, at the ports of the web
openssl req -x509 -newkey rsa:2048 -nodes -days 2 -subj /CN=keyreg.example -addext subjectAltName=DNS:keyreg.example \
    -keyout /etc/ssl/private/keyreg.pem -out /etc/ssl/certs/keyreg.pem 2>/tmp/told
sed -n 's/^#     //p' /etc/nginx/conf.d/keyreg.conf >/tmp/tls.sh
holds "the edit for TLS" bash -e /tmp/tls.sh
for at in 127.0.0.1 '[::1]'; do
    leads() {
        [ "$(curl -s -o /tmp/answer -w '%{http_code} %{redirect_url}' --resolve "keyreg.example:80:$at" \
            http://keyreg.example/list.json)" = "301 https://keyreg.example/list.json" ]
    }
    served() {
        [ "$(curl -s -D /tmp/answer -o /tmp/body -w '%{http_code}' --cacert /etc/ssl/certs/keyreg.pem \
            --user alice.meyer:other --resolve "keyreg.example:443:$at" https://keyreg.example/me)" = 200 ]
    }
    # nginx that is told to reload goes on for a moment as it was.
    holds "$at: without TLS it leads there" until_holds 10 leads
    holds "$at: by TLS it serves" until_holds 10 served
    holds "$at: which browsers keep to" grep -qi '^strict-transport-security: max-age=31536000' /tmp/answer
done
systemctl disable --now keyreg-list.timer keyreg-advance.timer keyreg-nightly.timer keyreg-follow.timer 2>/tmp/told
rm -rf /var/lib/keyreg-standby /var/lib/keyreg/nightly/*

# ---- one register
typed a-days-work 2
all_there() { local name; for name in "${named[@]}"; do command -v "$name" || { echo "no $name"; return 1; }; done; }
holds "the page's own commands have what they need" all_there
holds "it serves" until_holds 60 gets 8420 404
holds "the folder is the office's alone" mode_is /var/lib/keyreg "keyreg 750"
holds "the register is its own alone" mode_is /var/lib/keyreg/office.keyreg "keyreg 600"
holds "it waits for the clock" sh -c 'systemctl show -p After -p Wants keyreg | grep -c time-sync.target | grep -qx 2'

cd /tmp || exit
key='{"kind":"register","type":"master","owner":"bob","purpose":"root","activation":null,"protect_stop":null,'
key+='"deactivation":null}'
client() { python3 /usr/share/keyreg/client.py --caller ann --numbers /tmp/ann.numbers --patience "$1"; }

if [[ $parts == *" units "* ]]; then
# ---- a port that is taken for longer than ten starts
mkdir -p /run/systemd/system/keyreg.service.d
printf '[Service]\nRestartSec=100ms\nExecStopPost=\n' >/run/systemd/system/keyreg.service.d/fast.conf
systemctl stop keyreg
systemctl daemon-reload
python3 -c 'import socket, time
s = socket.create_server(("127.0.0.1", 8420)); time.sleep(600)' &
taker=$!
sleep 1
systemctl start keyreg
starts() { [ "$(systemctl show -p NRestarts --value keyreg)" -ge "$1" ]; }
holds "a taken port: it is started again more than ten times" until_holds 120 starts 14
kill "$taker"
holds "a port that is free again: it serves" until_holds 60 gets 8420 404
systemctl stop keyreg
rm /run/systemd/system/keyreg.service.d/fast.conf

# ---- its last exchange, and a fault
serve="/usr/bin/keyreg serve --file /var/lib/keyreg/office.keyreg --port 8420 --exchanges"
printf '[Service]\nExecStart=\nExecStart=%s 2\n' "$serve" >/run/systemd/system/keyreg.service.d/few.conf
systemctl daemon-reload
systemctl start keyreg
until_holds 60 gets 8420 404
away() { # Waits until it serves again, and counts the tenths of a second.
    local begun
    begun=$(date +%s%N)
    until_holds 60 gets 8420 404 || return 1
    tenths=$((($(date +%s%N) - begun) / 100000000))
    echo "away for $tenths tenths of a second"
}
ends() { gets 8420 404; away && ((tenths < 25)); }
holds "after its last exchange it serves again at once" ends
rm /run/systemd/system/keyreg.service.d/few.conf
systemctl daemon-reload
systemctl restart keyreg
until_holds 60 gets 8420 404
waits() { systemctl kill --signal=KILL keyreg; sleep 0.3; away && ((tenths > 40)); }
holds "after a fault it waits" waits
systemctl stop keyreg

# ---- a full disk, and a client that sends again
mount -t tmpfs -o size=600k,mode=750,uid=keyreg,gid=keyreg tmpfs /var/lib/keyreg
su keyreg -s /bin/sh -c 'umask 077; keyreg init --file /var/lib/keyreg/office.keyreg'
systemctl start keyreg
until_holds 60 gets 8420 404
holds "a request before" sh -c "$(declare -f client); echo '$key' | client 60"
# A command that ends cuts the log off, so that the next request needs room.
systemctl stop keyreg
su keyreg -s /bin/sh -c 'keyreg report --file /var/lib/keyreg/office.keyreg --days 0' >/tmp/told
head -c 600k /dev/zero >/var/lib/keyreg/filler 2>/tmp/told
systemctl start keyreg
until_holds 60 gets 8420 200
before=$(systemctl show -p NRestarts --value keyreg)
{ echo "$key" | client 300 >/tmp/answer 2>&1; echo "status $?" >>/tmp/answer; } &
sender=$!
more_starts() { [ "$(systemctl show -p NRestarts --value keyreg)" -ge $((before + $1)) ]; }
holds "a full disk: POST after POST ends the service, and it is started again" until_holds 200 more_starts 12
[ ! -s /tmp/answer ] || cat /tmp/answer
holds "a full disk: keys are read in between" until_holds 60 gets 8420 200
rm /var/lib/keyreg/filler
wait "$sender"
holds "a disk with room again: the request has its answer" grep -q '^ok 2 ' /tmp/answer
systemctl stop keyreg
counts='SELECT count(*), count(DISTINCT number) FROM request'
holds "it acted once" [ "$(sqlite3 /var/lib/keyreg/office.keyreg "$counts")" = "2|2" ]
umount /var/lib/keyreg
rm -r /run/systemd/system/keyreg.service.d
systemctl daemon-reload
systemctl start keyreg
until_holds 60 gets 8420 404

# ---- several registers
mkdir -p /etc/keyreg
for name in payroll site-b; do
    install -d -m 750 -o keyreg -g keyreg "/var/lib/keyreg/$name"
    su keyreg -s /bin/sh -c "umask 077; keyreg init --file /var/lib/keyreg/$name/office.keyreg"
done
echo PORT=8431 >/etc/keyreg/payroll.conf
echo PORT=8432 >/etc/keyreg/site-b.conf
holds "two instances start" systemctl enable --now keyreg@payroll keyreg@site-b
holds "the first serves on its port" until_holds 60 gets 8431 404
holds "the second serves on its port" until_holds 60 gets 8432 404
holds "an instance's folder is the office's alone" mode_is /var/lib/keyreg/payroll "keyreg 750"
typed several-registers 1
holds "a list of an instance, by OPERATING" systemctl start keyreg-list-payroll
holds "it is nginx's alone" mode_is /var/lib/keyreg-list-payroll/list.json "keyreg 640"
holds "what is due of an instance" systemctl start keyreg-due-payroll
holds "metrics of an instance" systemctl start keyreg-metrics-payroll
holds "they are its own" grep -q 'keyreg/payroll/office.keyreg' /var/lib/keyreg-metrics-payroll/keyreg.prom
# Its desk, by the words there: another port, the register's and the list's, and nothing that stands once.
sed -e '/# once$/d' -e 's/443/8443/; s/8420/8431/; s#/var/lib/keyreg-list;#/var/lib/keyreg-list-payroll;#' \
    /etc/nginx/conf.d/keyreg.conf >/etc/nginx/conf.d/payroll.conf
holds "a desk of an instance" sh -c 'nginx -t && systemctl reload nginx'
lists() {
    curl -s --cacert /etc/ssl/certs/keyreg.pem --user alice.meyer:other --resolve keyreg.example:8443:127.0.0.1 \
        https://keyreg.example:8443/list.json | grep -q '"count":0'
}
holds "it serves the list of the instance" until_holds 10 lists
rm /etc/nginx/conf.d/payroll.conf
systemctl reload nginx
systemctl disable --now keyreg-{list,due,mail,metrics}-payroll.timer 2>/tmp/told
rm /etc/systemd/system/keyreg-{list,due,mail,metrics}-payroll.*
systemctl daemon-reload

# ---- advance and the nightly look
rm -f /tmp/ann.numbers*
echo "$key" | client 60 >/dev/null
holds "an advance" systemctl start keyreg-advance.service
holds "the timers are there" systemctl enable --now keyreg-advance.timer keyreg-nightly.timer
holds "a night" systemctl start keyreg-nightly
holds "its picture is there" grep -q '"key' /var/lib/keyreg/nightly/last/keys.html
sleep 1
holds "the next night" systemctl start keyreg-nightly
holds "its line tells the night before" sh -c 'journalctl -u keyreg-nightly -o cat | grep -q "and as 20.* had it"'
last=$(readlink /var/lib/keyreg/nightly/last)
systemctl stop keyreg
sqlite3 /var/lib/keyreg/office.keyreg "UPDATE keys SET purpose = 'other' WHERE number = 1"
holds "a night after a change by another program fails" fails systemctl start keyreg-nightly
holds "its unit has failed" systemctl is-failed keyreg-nightly
holds "the last good night stays" [ "$(readlink /var/lib/keyreg/nightly/last)" = "$last" ]
sqlite3 /var/lib/keyreg/office.keyreg "UPDATE keys SET purpose = 'root' WHERE number = 1"
sleep 1
holds "a night after it was mended" systemctl start keyreg-nightly
# A disk of which a twentieth is free, and one without room for the nights to come.
nights=/var/lib/keyreg/nightly
mount -t tmpfs -o size=400m,mode=750,uid=keyreg,gid=keyreg tmpfs $nights
head -c 380m /dev/zero >$nights/filler
systemctl reset-failed keyreg-nightly
holds "a disk of which a twentieth is free has room for small nights" systemctl start keyreg-nightly
sleep 1
head -c 17m /dev/zero >>$nights/filler
holds "a disk without room for a hundred of them has none" fails systemctl start keyreg-nightly
holds "it says so" sh -c 'journalctl -u keyreg-nightly -o cat -n 20 | grep -q "fewer than 100"'
umount $nights
systemctl reset-failed keyreg-nightly
systemctl start keyreg

fi

# ---- an office gets up again after each accident, by the blocks of OPERATING
file=/var/lib/keyreg/office.keyreg
post() { # post CALLER NUMBER COMMAND: a request that is accepted.
    local reply
    reply=$(curl -s -m 20 http://127.0.0.1:8420/requests -H "Caller: $1" -H "Request-Number: $2" -d "$3")
    [[ $reply == *'"moment":'* ]] || echo "FAILED $1 $2 $3: $reply"
}
requests_of() { # Of a register that nobody writes to at the moment.
    local folder
    folder=$(mktemp -d) && cp "$1"* "$folder" &&
        sqlite3 "$folder/$(basename "$1")" "SELECT rowid, * FROM request ORDER BY rowid"
    rm -r "$folder"
}
has() { [[ $(requests_of $file) == *"$1"* ]]; }
is_as_many() { [ "$(requests_of $file | wc -l)" = "$1" ] || { requests_of $file; return 1; }; }
# Starts a unit as a timer does, however often it was started in the last seconds: systemd lets nobody start one more
# than five times in ten.
begins() {
    systemctl reset-failed "$1"
    systemctl start "$1" || { journalctl -u "$1" -o cat -n 8; return 1; }
}
night() { sleep 1; begins keyreg-nightly; }
follows() { begins keyreg-follow; }
# The service serves and accepts, the night is good, the standby has each request, and the timers go on.
is_up() {
    until_holds 60 gets 8420 200 || { journalctl -u keyreg -o cat -n 6; ls -l $file*; return 1; }
    mode_is $file "keyreg 600" && mode_is $file-wal "keyreg 600" || return 1
    sleep 1
    begins keyreg-advance && night && follows && begins keyreg-list || return 1
    cmp <(requests_of $file) <(requests_of /var/lib/keyreg-standby/office.keyreg) || return 1
    local timer
    for timer in advance nightly list follow; do
        state_is "keyreg-$timer.timer" active || { echo "keyreg-$timer.timer does not go on"; return 1; }
    done
}
# accident NAME: a folder of its own with office/ and samples/, and an office in which all is well.
accident() {
    mkdir -m 700 ~root/"$1" && cd ~root/"$1" && typed a-days-work 1
    holds "$1: before it all is well" is_up
    before=$(requests_of $file | wc -l)
}
stop_units() { typed stop-and-go-on 1; }
begin_anew() { typed stop-and-go-on 2; }
start_units() { typed stop-and-go-on 3; }

if [[ $parts == *" accidents "* ]]; then
head_typed keyreg-follow
systemctl enable --now keyreg-list.timer
holds "the list, by its timer" until_holds 30 test -s /var/lib/keyreg-list/list.json
holds "its folder is nginx's to enter" mode_is /var/lib/keyreg-list "keyreg 2750"
holds "it is nginx's to read" su www-data -s /bin/sh -c 'grep -q form /var/lib/keyreg-list/list.json'
holds "it is nobody else's" fails su nobody -s /bin/sh -c 'cat /var/lib/keyreg-list/list.json'
holds "so is the history" su www-data -s /bin/sh -c 'grep -q callers /var/lib/keyreg-list/history/*/index.json'
systemctl enable --now keyreg-advance.timer keyreg-nightly.timer keyreg-follow.timer
rm -f /tmp/ann.numbers*
printf '%s\n%s\n' "$key" "$key" | client 60 >/tmp/told
rm -f /var/lib/keyreg/nightly/last

accident future
systemctl stop keyreg
su keyreg -s /bin/sh -c "echo '4070908800 clock.job 4 advance' | keyreg run --file $file" >/tmp/told
systemctl start keyreg
until_holds 60 gets 8420 200
holds "future: a night fails" fails night
says() { journalctl -u "$1" -o cat -n 30 | grep -q "$2"; }
holds "future: it says why" says keyreg-nightly "2099-01-01T00:00:00Z, is after the clock"
holds "future: an advance fails" fails systemctl start keyreg-advance
holds "future: it names the refusal" says keyreg-advance MomentBehind
holds "future: the standby has it too" follows
stop_units
typed a-moment-in-the-future 2 "s#aside/day\.keyreg#aside/office.keyreg#g; s#day\.keyreg#$file#g"
holds "future: all but that request are there" is_as_many "$before"
begin_anew
start_units
holds "future: the office is up again" is_up

accident wrong
post bob 1 '{"kind":"add-custodian","key":1,"name":"cat"}'
post cat 1 '{"kind":"approve","key":1}'
holds "wrong: a night has it" night
holds "wrong: the standby has it" follows
stop_units
edit="s#aside_wrong/wrong\.keyreg#aside_wrong/office.keyreg#g; s#wrong\.keyreg#$file#g"
typed a-request-that-should-not-have-been-accepted 2 "$edit"
holds "wrong: what comes of it is told" grep -q "^refused: .* cat 1 'approve 1': NotCustodian" /tmp/typed
typed a-request-that-should-not-have-been-accepted 3 "$edit"
holds "wrong: it is gone, and what stood on it" is_as_many "$before"
begin_anew
start_units
holds "wrong: the office is up again" is_up

accident refused
systemctl stop keyreg
typed a-file-that-is-refused 1 "s#moved\.keyreg#$file#g"
holds "refused: it is" grep -qx "keyreg: NotARegister" /tmp/typed
systemctl start keyreg
holds "refused: the service ends" until_holds 30 says keyreg "keyreg: NotARegister"
holds "refused: a night fails" fails night
stop_units
edit="s#aside_refused/moved\.keyreg#aside_refused/office.keyreg#g; s#moved\.keyreg#$file#g"
typed a-file-that-is-refused 2 "$edit; s#--since day\.keyreg#--since /var/lib/keyreg/nightly/last/copy.keyreg#"
holds "refused: each row is as before" grep -q "each row of each table is as the requests give" /tmp/typed
holds "refused: no request is lost" is_as_many "$before"
start_units
holds "refused: the office is up again" is_up

accident restored
edit="s#aside_again/served\.keyreg#aside_again/office.keyreg#g; s#served\.keyreg#$file#g"
systemctl stop keyreg
typed restore 1 "1!d; $edit"
systemctl start keyreg
until_holds 60 gets 8420 200
post mallory 1 '{"kind":"revoke","key":1,"reason":2,"occurrence":null}'
holds "restored: a night has the request" night
holds "restored: the standby has it" follows
systemctl kill --signal=KILL keyreg
stop_units
holds "restored: the log lies beside it" [ "$(stat -c %s $file-wal)" -gt 1000 ]
typed restore 2 "$edit"
holds "restored: it is the backup" is_as_many "$before"
begin_anew
start_units
holds "restored: the office is up again" is_up
holds "restored: the request is gone" fails has mallory

accident standby
post bob 2 '{"kind":"add-custodian","key":1,"name":"eve"}'
holds "standby: it has the last request" follows
rm $file*
typed take-a-standby-into-use 1
start_units
holds "standby: the office is up again" is_up
holds "standby: nothing is lost" has "add-custodian 1 eve"
holds "standby: and nothing else" is_as_many $((before + 2))

accident readable
post bob 3 '{"kind":"add-custodian","key":1,"name":"fay"}'
typed take-a-standby-into-use 1
start_units
holds "readable: the office is up again" is_up
holds "readable: nothing is lost" has "add-custodian 1 fay"
cd /tmp || exit
fi
[[ $parts == *" units "* ]] || exit 0

# ---- what is due is told, and what failed; a monitor looks
told=/var/spool/told
install -d -o keyreg $told
cat >/usr/sbin/sendmail <<END
#!/bin/sh
echo "\$*" >>$told/words
cat >>$told/mails
END
chmod 755 /usr/sbin/sendmail
due="\"activation\":$(date +%s -d '9 days ago'),\"protect_stop\":$(date +%s -d '5 days'),\"deactivation\":null"
until_holds 60 gets 8420 200
post ann 900 "{\"kind\":\"register\",\"type\":\"master\",\"owner\":\"bob\",\"purpose\":\"due; \$(id)\",$due}"
typed be-told 2 "s#key-office,keys@#bob,bob@#"
holds "due: the calendars are there" grep -q '^SUMMARY:.* of bob is due' /var/lib/keyreg-due/owners/bob.ics
holds "due: they are the office's alone" mode_is /var/lib/keyreg-due "keyreg 750"
holds "due: the table is the office's alone" mode_is /etc/keyreg/addresses.csv "root 640"
holds "due: a mail goes" systemctl start keyreg-mail
holds "due: to whom the table names" grep -qx -e '-i -- bob@office.example' $told/words
for timer in due mail; do holds "due: keyreg-$timer.timer goes on" state_is keyreg-$timer.timer active; done
typed watch-it 1
mkdir -p /run/systemd/system/keyreg-list.service.d
printf '[Service]\nExecStart=\nExecStart=/bin/sh -c "echo so; exit 7"\n' >/run/systemd/system/keyreg-list.service.d/ends.conf
systemctl daemon-reload
fails systemctl start keyreg-list 2>/tmp/told
holds "a unit that fails is told" until_holds 20 grep -q '^Subject: keyreg-list.service has failed' $told/mails
holds "to whom the line names" grep -qx -e '-i -- watch@office.example' $told/words
holds "with its last lines" grep -q ' so$' $told/mails
fails systemctl start keyreg-list 2>/tmp/told
sleep 3
holds "and once in six hours" [ "$(grep -c '^Subject: keyreg-list' $told/mails)" = 1 ]
rm -r /run/systemd/system/keyreg-list.service.d
systemctl daemon-reload
systemctl reset-failed
systemctl start keyreg-list
mkdir -p /var/lib/prometheus/node-exporter
typed watch-it 3
looks() {
    su nobody -s /bin/sh -c 'python3 /usr/share/keyreg/metrics.py look /var/lib/prometheus/node-exporter/keyreg.prom \
        --address http://127.0.0.1:8420' | tee /dev/stderr | grep -q "^KEYREG OK .* due=1 overdue=0"
}
night >/tmp/told
systemctl start keyreg-metrics
holds "a monitor finds all well" looks
systemctl stop keyreg
holds "it finds that the service is away" fails looks
systemctl start keyreg
says_why() { python3 /usr/share/keyreg/why.py $file --user keyreg | grep -q "another program has it: process"; }
holds "why.py says that the service has the file" until_holds 20 says_why

# ---- upgrade and removal, by OPERATING
systemctl stop 'keyreg*'
holds "all are stopped" sh -c '! systemctl list-units --no-legend --state=active "keyreg*" | grep -v slice'
holds "a newer package" dpkg --install /keyreg.deb
systemctl daemon-reload
start_units
holds "it serves after it" until_holds 60 gets 8420 200
holds "its timers go on after it" state_is keyreg-nightly.timer active
is_loaded() { [ "$(systemctl show -p NeedDaemonReload --value keyreg)" = no ]; }
holds "systemd has the units of the package" is_loaded
systemctl enable keyreg-list.timer keyreg-follow.timer 2>/tmp/told
sed -i '1s/$/ keyreg-{follow,due,mail,metrics}.timer keyreg@payroll keyreg@site-b/' /blocks/packages/remove.sh
holds "a removal, by OPERATING" bash -e /blocks/packages/remove.sh
holds "no unit is left" sh -c '! systemctl list-units --all --no-legend --type=service,timer "keyreg*" | grep .'
holds "no link is left" sh -c '! find /etc/systemd -name "keyreg*" | grep .'
holds "no stamp is left" sh -c '! find /var/lib/systemd/timers -name "*keyreg*" | grep .'
holds "the register stays" test -s /var/lib/keyreg/office.keyreg
