#!/bin/bash
# The session of bench/peers/unit, in its container. Each step is a line '@@ ok STEP: what was seen' or '@@ FAILED STEP: ..'.

say() { echo "@@ $*"; }

# step NAME COMMAND..: runs it, and tells how it went, with the last line that it printed.
step() {
    local told=$1
    shift
    if "$@" < /dev/null > /run/said 2>&1; then
        say "ok unit: $told: $(tail -n 1 /run/said | cut -c 1-100)"
    else
        say "FAILED unit: $told: $(tail -n 3 /run/said | tr '\n' ' ' | cut -c 1-200)"
    fi
}

# Waits for at most a minute until the command succeeds.
await() {
    for _ in $(seq 120); do
        "$@" && return
        sleep 0.5
    done
    echo "not within a minute: $*"
    return 1
}

told() { systemctl show --value -p "$2" "usbgate@$1"; }

process() { told "$1" MainPID; }

# The instance is up by another process than this one.
is_anew() { [ "$(told "$1" ActiveState)" = active ] && [ "$(process "$1")" != "$2" ] && [ "$(process "$1")" != 0 ]; }

# A client lists the device.
lists() { usbip list -r 127.0.0.1 2>&1 | grep fff0:0002; }

has_no_privilege() {
    local status
    status=/proc/$(process "$1")/status
    grep -Eq '^CapBnd:\s0+$' "$status" && grep -Eq '^NoNewPrivs:\s1$' "$status" && ps -o user= -p "$(process "$1")" | grep -v root
}

# killed NAME: one more process is there for it, and the restarts are counted.
killed() {
    local before
    before=$(process "$1")
    systemctl kill -s KILL "usbgate@$1" && await is_anew "$1" "$before" && echo "process $before, then $(process "$1"); $(told "$1" NRestarts) restarts"
}

stays_ended() {
    sleep 8
    systemctl show -p ActiveState,ExecMainStatus,NRestarts "usbgate@$1" | tr '\n' ' '
    [ "$(told "$1" ActiveState) $(told "$1" ExecMainStatus) $(told "$1" NRestarts)" = "failed 1 0" ]
}

mkdir -p /etc/usbgate
echo 'WORDS=host --device loop --listen 127.0.0.1:4000 --idle 4294967295' > /etc/usbgate/loop
echo 'WORDS=serve --host 127.0.0.1:4000 --listen 127.0.0.1:3240 --idle 4294967295' > /etc/usbgate/probe
echo 'WORDS=sevre --host 127.0.0.1:4000' > /etc/usbgate/typo

step "systemd" sh -c 'systemctl --version | head -n 1'
step "is read without a word" test -z "$(systemd-analyze verify --man=no usbgate@probe.service 2>&1)"
step "starts" systemctl enable --now usbgate@loop usbgate@probe
step "serves" await lists
step "has a user of its own, and no privilege" has_no_privilege probe
step "has a bound of memory" sh -c 'systemctl show -p LimitAS usbgate@probe | grep =1073741824'
step "is killed, and begins anew" killed probe
step "serves again" await lists
step "its host is killed, and begins anew" killed loop
step "serves once more" await lists
step "ends by an order" systemctl stop usbgate@probe
step "and isn't there" sh -c '! usbip list -r 127.0.0.1 | grep fff0:0002'
step "begins by an order" systemctl start usbgate@probe
step "serves a last time" await lists
systemctl start usbgate@typo
step "words that are no command end it once" stays_ended typo
step "its words are in the journal" sh -c "journalctl -o cat -u usbgate@probe | grep 'usbgate: '"
step "its exposure" systemd-analyze security --threshold=20 usbgate@probe.service
say end
systemctl poweroff --force --force
