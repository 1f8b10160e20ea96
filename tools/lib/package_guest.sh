# shellcheck shell=bash

# Runs in a clean root, for tools/package.py: installs the package /shared/wuthkeam.deb and tries
# it. Each line of its output is a name, `: ` and what was seen.
#
#   bash package_guest.sh chroot    without systemd.
#
#   bash package_guest.sh boot      after the first boot.
#
#   bash package_guest.sh again     after the second boot, which finds the router enabled.
#
#   bash package_guest.sh local     over what install.sh put below /usr/local and /opt/a.
export LC_ALL=C DEBIAN_FRONTEND=noninteractive

# note NAME VALUE..: prints what was seen.
note() {
    local name=$1
    shift
    printf '%s: %s\n' "$name" "$*"
}

# status_of COMMAND..: prints the status of a command, and its standard error in /shared/err.
status_of() {
    local status=0
    "$@" > /dev/null 2> /shared/err || status=$?
    echo $status
}

# ask COMMAND..: prints the answer of the router at 7777 to the commands, without line ends.
ask() {
    exec 3<> /dev/tcp/127.0.0.1/7777 || return 1
    printf '%s\n' "$@" QUIT >&3
    timeout 60 cat <&3 | tail -n +2 | tr -d '\r\n'
    exec 3<&-
}

# process NAME: prints the process of a router.
process() { systemctl show -P MainPID "click@$1"; }

# said, logged PATTERN: print how often a line of the journal of the router `line` has the pattern:
# a line of clickd, or one of the router's log.
said() { journalctl --sync; journalctl -u click@line -o cat | grep -v ' session=' | grep -c "$1"; }
logged() { journalctl --sync; journalctl -u click@line -o cat | grep ' session=' | grep -c "$1"; }

# use TEXT: makes the text the file of the router `line`.
use() { printf '%s\n' "$@" > /etc/click/line.click; }

# install_package: installs the package, and notes what a machine without the toolchain has then.
install_package() {
    note toolchain "$(command -v rt rattle || echo none)"
    note installed "$(status_of dpkg -i /shared/wuthkeam.deb)"
    note version "$(click_prog --version 2>&1)"
    note folder "$(stat -c '%a %U' /etc/click)"
    cp /usr/share/doc/wuthkeam/examples/line.* /etc/click/
}

try_chroot() {
    local clickd=/usr/libexec/click/clickd file=/etc/click/line.click router
    ip link set lo up 2> /dev/null
    install_package
    $clickd run $file -p 7777 -n 8 > /dev/null 2>&1 &
    router=$!
    note waited "$(status_of env MAINPID=$router $clickd wait $file -p 7777)"
    use 'Idle -> new :: Counter -> Discard;'
    note reloaded "$(status_of $clickd reload $file -p 7777)"
    note list "$(ask 'READ list')"
    kill $router
    note removed "$(status_of dpkg -r wuthkeam)"
    note left "$(find / -xdev \( -path /proc -o -path /shared -o -path /var \) -prune -o \( -name 'click*' -o -name '*wuthkeam*' \) -print | sort | xargs)"
    note kept "$(cd /etc/click && echo *)"
}

# try_start: starts the router `line`, and notes what its process may do.
try_start() {
    local number
    note started "$(status_of systemctl start click@line)"
    number=$(process line)
    note program "$(readlink "/proc/$number/exe")"
    note user "$(if [ "$(stat -c %u "/proc/$number")" -ge 61184 ]; then echo own; else stat -c %u "/proc/$number"; fi)"
    note rights "$(grep -E '^(CapEff|CapBnd|NoNewPrivs|Seccomp):' "/proc/$number/status" | tr -s '\t\n' ' ')"
    note root "$(grep -E ' / / ' "/proc/$number/mountinfo" | tail -n 1 | cut -d ' ' -f 6 | cut -d , -f 1)"
    note config "$(ask 'READ config' | tail -c 70)"
}

# try_reload NAME: reloads the router twice: to a new text, and to one with a fault.
try_reload() {
    local number
    number=$(process line)
    use "Idle -> $1 :: Counter -> Discard;"
    note "$1 reloaded" "$(status_of systemctl reload click@line)"
    note "$1 list" "$(ask 'READ list')"
    use 'Idle -> Discard;' "Idle -> no_$1;"
    note "$1 refused" "$(status_of systemctl reload click@line)"
    note "$1 fault" "$(said '11 UnknownName')"
    note "$1 logged" "$(logged ' swap .* outcome=fault fault="11 UnknownName at 2:9"$')"
    note "$1 unchanged" "$(ask 'READ list')"
    note "$1 process" "$(if [ "$(process line)" = "$number" ]; then echo same; else echo other; fi) $(systemctl is-active click@line)"
}

# limit: prints the variable of the C library that the router has.
limit() { tr '\0' '\n' < "/proc/$(process line)/environ" | grep MALLOC_ || echo none; }

# try_end: kills the router, which has to come back.
try_end() {
    local number
    number=$(process line)
    use 'Idle -> back :: Counter -> Discard;'
    kill -KILL "$number"
    for _ in {1..300}; do
        if [ "$(process line)" != "$number" ] && systemctl --quiet is-active click@line; then break; fi
        sleep 0.1
    done
    note back "$(if [ "$(process line)" = "$number" ]; then echo same; else echo other; fi) $(systemctl is-active click@line) $(ask 'READ list')"
    note restarts "$(systemctl show -p NRestarts click@line)"
    note limit "$(limit)"
    echo MALLOC_MMAP_THRESHOLD_=131072 >> /etc/click/line.conf
    { printf '// '; head -c 200000 /dev/zero | tr '\0' x; printf '\nIdle -> long :: Counter -> Discard;\n'; } > /etc/click/line.click
    note long "$(status_of systemctl restart click@line) $(ask 'READ list')"
    note own_limit "$(limit)"
}

# try_wrong: starts routers that cannot run.
try_wrong() {
    printf 'Idle -> nowhere;\n' > /etc/click/bad.click
    printf 'OPTIONS=-p 7778\n' > /etc/click/bad.conf
    note bad "$(status_of systemctl start click@bad) $(sleep 1.5; systemctl is-failed click@bad) $(systemctl show -P NRestarts click@bad) $(systemctl show -P ExecMainStatus click@bad)"
    note missing "$(status_of systemctl start click@missing) $(grep -c 'Assertion failed' /shared/err)"
    cp /etc/click/line.click /etc/click/second.click
    cp /etc/click/line.conf /etc/click/second.conf
    note second "$(status_of systemctl start click@second) $(systemctl show -P ExecMainStatus click@second)"
    systemctl stop click@second
}

try_boot() {
    install_package
    note sandbox "$(systemd-analyze security --no-pager click@line | sed -n 's/.*exposure level for [^:]*: \([0-9.]*\).*/\1/p')"
    try_start
    try_reload one
    if [ -e /usr/bin/clickctl ]; then
        mv /usr/bin/clickctl /usr/bin/clickctl.not
        try_reload two
        mv /usr/bin/clickctl.not /usr/bin/clickctl
    else
        try_reload two
    fi
    try_end
    try_wrong
    use 'Idle -> boot :: Counter -> Discard;'
    note enabled "$(status_of systemctl enable click@line)"
}

try_again() {
    local number
    note booted "$(systemctl is-active click@line) $(ask 'READ list')"
    number=$(process line)
    note upgraded "$(status_of dpkg -i /shared/wuthkeam.deb) $(if [ "$(process line)" = "$number" ]; then echo same; else echo other; fi)"
    note restarted "$(status_of systemctl restart 'click@*') $(if [ "$(process line)" = "$number" ]; then echo same; else echo other; fi)"
    note removed "$(status_of dpkg -r wuthkeam) $(systemctl is-active click@line) $(stat -c %a /etc/click/line.click)"
}

try_local() {
    cp /usr/local/share/doc/wuthkeam/examples/line.* /etc/click/
    note started "$(status_of systemctl start click@line)"
    note program "$(readlink "/proc/$(process line)/exe")"
    try_reload local
    systemctl stop click@line
    rm /usr/local/lib/systemd/system/click@.service
    systemctl daemon-reload
    use 'Idle -> Discard;'
    note unknown "$(status_of systemctl start click@line)"
    note linked "$(status_of systemctl link /opt/a/lib/systemd/system/click@.service)"
    note elsewhere "$(status_of systemctl start click@line) $(readlink "/proc/$(process line)/exe")"
}

"try_$1"
