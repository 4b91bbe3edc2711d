#!/bin/sh
# Fetches the Debian source packages of designs.list into a folder, one folder each: fetch.sh FOLDER. It needs deb-src lines in /etc/apt.
set -eu
list=$(dirname "$(realpath "$0")")/designs.list
mkdir -p "$1"
cd "$1"
for package in $(grep -v '^#' "$list" | cut -d '|' -f 2 | sort -u); do
    apt-get source --download-only "$package" || echo "$package: some files can't be fetched"
    archive=$(ls "${package}"_*.orig.tar.* | head -n 1)
    mkdir -p "$package"
    tar -xf "$archive" -C "$package" --strip-components=1
done
