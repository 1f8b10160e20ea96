#!/usr/bin/env bash
# Makes a Debian package with the files of ./install.sh, for the prefix /usr, and prints its path.
#
#   ./package.sh [FOLDER]           packs the proved program; FOLDER (out/) gets the package
#   ./package.sh --quick [FOLDER]   packs the same program UNPROVED; builds it if needed
#
# The name of an unproved package has the word `unproved` in its version. The exit status is that of
# ./install.sh, or 1 if the package cannot be made.
set -eu
top=$(dirname "$(readlink -f "$0")")
usage='usage: ./package.sh [--quick] [FOLDER]'
quick='' unproved='' note=''
if [ "${1:-}" = --quick ]; then
    quick=--quick unproved='~unproved' note=' This program is NOT PROVED.'
    shift
fi
case $#${1:-} in 0 | 1[!-]*) ;; *) echo "package.sh: $usage" >&2 && exit 2 ;; esac
command -v dpkg-deb > /dev/null || { echo 'package.sh: there is no dpkg-deb' >&2 && exit 1; }
mkdir -p "${1:-$top/out}"
folder=$(cd "${1:-$top/out}" && pwd)
work=$(mktemp -d)
trap 'rm -rf "$work"' EXIT
root=$work/root
umask 022
mkdir "$root"

# changed: prints the time of the last commit in seconds, or of install.sh if there is no repository, so
# that the same sources give the same package.
changed() { git -C "$top" log -1 --format=%ct 2> /dev/null || stat -c %Y "$top/install.sh"; }

# version SECONDS: prints the version of the package: that of the program, and this time.
version() {
    local number
    number=$("$root/usr/bin/click_prog" --version 2>&1 || true)
    echo "${number#click_prog }+$(date -u -d "@$1" +%Y%m%d.%H%M)$unproved"
}

# newest_libc: prints the newest version of the C library that the program asks for.
newest_libc() { grep -aoE 'GLIBC_[0-9.]+' "$root/usr/bin/click_prog" | sort -uV | tail -n 1 | cut -d _ -f 2; }

# write_control VERSION: writes what Debian has to know about the package.
write_control() {
    local depends
    depends="libc6 (>= $(newest_libc))"
    if [ -e "$root/usr/bin/clickctl" ]; then depends="$depends, python3:any"; fi
    cat > "$root/DEBIAN/control" << END
Package: wuthkeam
Version: $1
Architecture: $(dpkg --print-architecture)
Maintainer: Wuthkeam maintainers <maintainers@users.noreply.wuthkeam.example>
Installed-Size: $(du -sk --apparent-size "$root/usr" | cut -f 1)
Depends: $depends
Section: net
Priority: optional
Description: Click router whose control and packet processing are proved
 A software router after Click (Kohler, Morris, Chen, Jannotti and Kaashoek,
 2000): a configuration names elements and connects their ports. Control
 sessions read and write handlers of the elements, and replace the running
 configuration.$note
 .
 The unit click@NAME runs the configuration /etc/click/NAME.click.
END
    # No router is restarted by an upgrade: that is up to the operator.
    cat > "$root/DEBIAN/postinst" << 'END'
#!/bin/sh
set -e
if [ -d /run/systemd/system ]; then systemctl daemon-reload; fi
END
    cp "$root/DEBIAN/postinst" "$root/DEBIAN/postrm"
    cat > "$root/DEBIAN/prerm" << 'END'
#!/bin/sh
set -e
if [ "$1" = remove ] && [ -d /run/systemd/system ]; then systemctl stop 'click@*.service'; fi
END
    chmod 755 "$root/DEBIAN/postinst" "$root/DEBIAN/postrm" "$root/DEBIAN/prerm"
}

# write_papers VERSION SECONDS: writes the files that each package of Debian has.
write_papers() {
    local doc=$root/usr/share/doc/wuthkeam
    cat > "$doc/copyright" << END
Wuthkeam, a Click router.

Copyright: 2026 Wuthkeam maintainers

License: the repository states no licence, so all rights are reserved.
END
    printf 'wuthkeam (%s) unstable; urgency=medium\n\n  * Made by package.sh.\n\n -- %s  %s\n' "$1" \
        'Wuthkeam maintainers <maintainers@users.noreply.wuthkeam.example>' "$(date -u -R -d "@$2")" | gzip -9n > "$doc/changelog.gz"
    # The program is packed unchanged, with its symbols, so that it has the bytes that were proved.
    mkdir -p "$root/usr/share/lintian/overrides"
    echo 'wuthkeam: unstripped-binary-or-object [usr/bin/click_prog]' > "$root/usr/share/lintian/overrides/wuthkeam"
}

# shellcheck disable=SC2086 # no word or one
DESTDIR=$root "$top/install.sh" $quick /usr > /dev/null
find "$root/usr/share/man" -type f -exec gzip -9n {} +
seconds=$(changed)
version=$(version "$seconds")
mkdir "$root/DEBIAN"
write_papers "$version" "$seconds"
write_control "$version"
(cd "$root" && find usr -type f -print0 | LC_ALL=C sort -z | xargs -0 md5sum > DEBIAN/md5sums)
find "$root" -exec touch -h -d "@$seconds" {} +
package=$folder/wuthkeam_${version}_$(dpkg --print-architecture).deb
SOURCE_DATE_EPOCH=$seconds dpkg-deb --root-owner-group -Zxz --build "$root" "$package" > /dev/null
echo "$package"
