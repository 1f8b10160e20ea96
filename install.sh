#!/usr/bin/env bash
# Installs the router: its programs, manual pages, completion for bash, and the unit click@NAME.
#
#   ./install.sh [PREFIX]               installs the proved program below PREFIX (/usr/local).
#
#   ./install.sh --quick [PREFIX]       installs the same program UNPROVED. Builds it if needed.
#
#   ./install.sh --uninstall [PREFIX]   removes exactly the files that this script installs.
#
# If DESTDIR is set, it is put in front of all paths, and the files work after they are moved from
# there to PREFIX. The configurations in /etc/click belong to the operator: neither an installation
# nor --uninstall changes them. docs/OPERATING.md is the page for operators.
#
# The exit status is 2 if the words are wrong, and 5 if there is no program to install, as for
# run.sh. It is 1 if a file cannot be written or removed.
set -eu
. "$(dirname "$(readlink -f "$0")")/tools/lib/built.sh"
destdir=${DESTDIR:-}
configurations=/etc/click
usage='usage: ./install.sh [--quick|--uninstall] [PREFIX]'

# stop STATUS LINE..: prints the lines on standard error and exits.
stop() {
    local status=$1
    shift
    printf 'install.sh: %s\n' "$@" >&2
    exit "$status"
}

# find_program QUICK: leaves the program to install in $program, or stops. QUICK is not empty for
# the unproved program.
find_program() {
    local sources
    command -v rt > /dev/null || stop 5 'the command rt of the toolchain is not on the PATH, so the program cannot be known to be up to date'
    if [ -n "$1" ]; then
        echo 'install.sh: the program that is installed is NOT PROVED (--quick)' >&2
        "$top/tools/quick_build.py" click_prog < /dev/null >&2 || stop 5 'the program was not built'
        program=$top/crates/click_prog/out/quick/click_prog
    else
        sources=$(sum_of_sources) || stop 5 'the sources could not be read'
        is_built_from "$sources" || stop 5 "${built#"$top"/} is not proved from the present sources" \
            './run.sh --version proves and builds it, in about an hour' './install.sh --quick installs the unproved program'
        program=$built
    fi
}

# files: prints a line for each file: its mode, its path below PREFIX, and its source from the top of
# the repository, or in parentheses if it is made. A line with a file of clients/ before its source
# holds only if that file exists.
files() {
    cat << END
755 bin/click_prog (program)
755 libexec/click/clickd service/clickd.sh
644 lib/systemd/system/click@.service (unit)
644 share/bash-completion/completions/click_prog service/click_prog.bash
644 share/man/man1/click_prog.1 (click_prog)
644 share/man/man5/click.5 (click)
644 share/doc/wuthkeam/examples/line.click service/line.click
644 share/doc/wuthkeam/examples/line.conf service/line.conf
644 share/doc/wuthkeam/examples/alerts.yml service/alerts.yml
755 lib/click/clickctl clients/clickctl clients/clickctl
644 lib/click/click_client.py clients/clickctl clients/click_client.py
link bin/clickctl clients/clickctl (link)
644 share/bash-completion/completions/clickctl clients/clickctl service/clickctl.bash
644 share/man/man1/clickctl.1 clients/clickctl (clickctl)
END
}

# make KIND: prints a file that is made for this PREFIX.
make() {
    case $1 in
    '(program)') cat "$program" ;;
    '(unit)') sed "s|@libexec@|$prefix/libexec/click|" "$top/service/click@.service" ;;
    '(click_prog)') "$top/service/manual.py" click_prog "$program" ;;
    '(clickctl)') "$top/service/manual.py" clickctl "$top/clients/clickctl" ;;
    '(click)') "$top/service/manual.py" click ;;
    *) cat "$top/$1" ;;
    esac
}

# make_all: makes each file in the folder $made, so that nothing is installed if one of them fails.
make_all() {
    local mode to source
    files | while read -r mode to source; do
        case $source in clients/*) [ -e "$top/${source%% *}" ] || continue ;; esac
        mkdir -p "$(dirname "$made/$to")"
        if [ "$mode" = link ]; then
            ln -s ../lib/click/clickctl "$made/$to"
        else
            make "${source##* }" > "$made/$to"
            chmod "$mode" "$made/$to"
        fi
    done
}

# put TARGET: installs one file. It is written next to its target first, so that a router that runs
# keeps the program that it was started from.
put() {
    local to=$destdir$prefix/$1
    mkdir -p "$(dirname "$to")"
    cp -P --preserve=mode "$made/$1" "$to.new"
    mv -fT "$to.new" "$to"
}

# reload_units: makes a running systemd read the unit, unless the files are installed elsewhere.
reload_units() {
    if [ -z "$destdir" ] && [ -d /run/systemd/system ]; then systemctl daemon-reload; fi
}

install_all() {
    local to
    umask 022
    made=$(mktemp -d)
    trap 'rm -rf "$made"' EXIT
    make_all
    (cd "$made" && find . ! -type d -printf '%P\n') | while read -r to; do put "$to"; done
    mkdir -p "$destdir$configurations"
    reload_units
    echo "install.sh: installed below $destdir$prefix; put NAME.click and NAME.conf into $configurations, then: systemctl start click@NAME"
    case $prefix in
    /usr | /usr/local) ;;
    *) echo "install.sh: systemd does not look for units in $prefix: systemctl link $prefix/lib/systemd/system/click@.service" ;;
    esac
}

uninstall_all() {
    local mode to source
    files | while read -r mode to source; do rm -f "$destdir$prefix/$to"; done
    for to in libexec/click lib/click share/doc/wuthkeam/examples share/doc/wuthkeam; do
        if [ -d "$destdir$prefix/$to" ]; then rmdir --ignore-fail-on-non-empty "$destdir$prefix/$to"; fi
    done
    if [ -d "$destdir$configurations" ]; then rmdir --ignore-fail-on-non-empty "$destdir$configurations"; fi
    reload_units
}

what=install
case ${1:-} in
--quick) what=quick && shift ;;
--uninstall) what=uninstall && shift ;;
-*) stop 2 "$usage" ;;
esac
[ $# -le 1 ] || stop 2 "$usage"
prefix=${1:-/usr/local}
case $prefix in
*[!A-Za-z0-9/._+-]*) stop 2 "PREFIX: '$prefix' has a character other than letters, digits, / . _ + and -" ;;
/*) prefix=${prefix%/} ;;
*) stop 2 "PREFIX: '$prefix' does not begin with /" ;;
esac
case $what in
uninstall) uninstall_all ;;
install)
    find_program ''
    install_all ;;
quick)
    find_program quick
    install_all ;;
esac
