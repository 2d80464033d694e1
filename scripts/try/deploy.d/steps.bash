# What the scripts of scripts/try/deploy share, which run in its containers as root, with systemd as process 1.
# shellcheck shell=bash
# shellcheck disable=SC2034
try=/try
doc=/usr/share/doc/iodef-hub
state=/var/lib/private/iodef-hub
copies=/var/backups/iodef-hub
passed=0 failed=0
ok() { passed=$((passed + 1)); echo "ok: $1"; }
not_ok() { failed=$((failed + 1)); echo "FAILED: $1"; }
# want TEXT COMMAND..: the command succeeds
want() { local text=$1; shift; if "$@" >>/try/log 2>&1; then ok "$text"; else not_ok "$text"; fi; }
# want_not TEXT COMMAND..: the command fails
want_not() { local text=$1; shift; if "$@" >>/try/log 2>&1; then not_ok "$text"; else ok "$text"; fi; }
# same TEXT WANTED FOUND
same() { if [ "$2" = "$3" ]; then ok "$1"; else not_ok "$1: wanted $2, found $3"; fi; }
# holds TEXT PATTERN TEXT-LOOKED-INTO
holds() { if grep -qE -- "$2" <<<"$3"; then ok "$1"; else not_ok "$1: no $2 in ${3:0:300}"; fi; }
digest() { printf %s "$1" | sha256sum | cut -d' ' -f1; }
pid_of() { systemctl show -p MainPID --value "iodef-hub@$1"; }
wait_active() { for _ in $(seq 600); do systemctl is-active --quiet "$1" && return; sleep 0.1; done; return 1; }
newest() { find "$copies/$1" -name 'hub-*.db' | sort | tail -n 1; }
# A program with an address sanitizer, which is only for trials, takes more than any limit of data.
allow_sanitizer() {
    grep -qF AddressSanitizer /usr/bin/iodef-hub || return 0
    mkdir -p /etc/systemd/system/iodef-hub@.service.d
    printf '[Service]\nEnvironment=IODEF_HUB_CGROUPS=/nowhere\n' >/etc/systemd/system/iodef-hub@.service.d/trial.conf
    systemctl daemon-reload
}
