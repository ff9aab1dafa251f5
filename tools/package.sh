#!/bin/sh
# Packs the built program for machines without the kit: an archive, and a Debian package where dpkg-deb is installed. The
# program needs the C library alone.
#
#     package.sh FOLDER [VERSION]     writes knf-VERSION.tar.gz and knf_VERSION_amd64.deb to FOLDER
set -eu

case ${1:-} in
-h | --help)
    sed -n '2,5s/^# *//p' "$0"
    exit 0
    ;;
esac
top=$(cd "$(dirname "$0")/.." && pwd)
program=${KNF:-$top/crates/knf/out/knf}
[ $# -ge 1 ] || { echo "usage: package.sh FOLDER [VERSION]" >&2; exit 2; }
[ -x "$program" ] || { echo "package.sh: there is no program $program: build it first" >&2; exit 1; }
target=$(cd "$1" && pwd)
version=${2:-0.1}
work=$(mktemp -d)
trap 'rm -r "$work"' EXIT

root=$work/knf-$version
install -D -m 755 "$program" "$root/usr/bin/knf"
mkdir -p "$root/usr/share/man/man1" "$root/usr/share/doc/knf/docs" "$root/usr/share/doc/knf/bench" "$root/usr/share/knf"
gzip -9nc "$top/docs/knf.1" > "$root/usr/share/man/man1/knf.1.gz"
cp "$top/README.md" "$root/usr/share/doc/knf/"
cp "$top"/docs/*.md "$top"/docs/*.svg "$root/usr/share/doc/knf/docs/"
cp "$top/bench/README.md" "$root/usr/share/doc/knf/bench/"
cp -R "$top/examples" "$top/tools" "$root/usr/share/knf/"
find "$root" -name __pycache__ -prune -exec rm -r {} +

tar -C "$work" -czf "$target/knf-$version.tar.gz" "knf-$version"
echo "$target/knf-$version.tar.gz"

if command -v dpkg-deb > /dev/null; then
    mkdir "$root/DEBIAN"
    cat > "$root/DEBIAN/control" <<END
Package: knf
Version: $version
Architecture: amd64
Maintainer: the knf authors <knf@localhost>
Depends: libc6
Suggests: python3
Section: math
Priority: optional
Description: solver for formulas with counts, whose answers come with a proof
 Reads DIMACS CNF and KNF, solves, writes and checks proofs, and turns counts into clauses.
END
    dpkg-deb --build --root-owner-group "$root" "$target/knf_${version}_amd64.deb" > /dev/null
    echo "$target/knf_${version}_amd64.deb"
fi
