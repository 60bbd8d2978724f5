#!/usr/bin/env bash
# Makes an archive of the library that needs no toolchain but a C compiler:
#
#     examples/pack.sh FOLDER
#
# puts FOLDER/kuldebiq-VERSION-linux-x86_64.tar.gz, in which one folder of that name has what
# examples/install.sh makes, and the license. It is unpacked anywhere.
set -eu
if [ $# -ne 1 ]; then
    echo 'usage: examples/pack.sh FOLDER' >&2
    exit 2
fi
top=$(cd "$(dirname "$(readlink -f "$0")")/.." && pwd)
source "$top/dev/steps.sh"
version=$(version_of "$top")
name=kuldebiq-$version-linux-x86_64
made=$(mktemp -d)
trap 'rm -rf "$made"' EXIT
"$top/examples/install.sh" "$made/$name"
install -m 644 "$top/LICENSE" "$made/$name/"
mkdir -p "$1"
tar -C "$made" --sort=name --owner=0 --group=0 --numeric-owner -czf "$1/$name.tar.gz" "$name"
echo "$1/$name.tar.gz"
