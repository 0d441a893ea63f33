#!/bin/bash
# Prints what numbers of a measurement stand beside: the date, the commit, the kit, and the machine.
set -e
cd "$(dirname "$0")/.."
changed=$(git status --porcelain --untracked-files=no)
echo "date     $(date -u +%Y-%m-%d)"
echo "commit   $(git rev-parse --short HEAD)${changed:+, with changes}"
echo "kit      $(rt version)"
echo "machine  $(nproc) processors ($(sed -n 's/^model name[^:]*: //p' /proc/cpuinfo | head -n 1)), $(awk '/^MemTotal/ { printf "%.0f GB", $2 / 1000000 }' /proc/meminfo)"
echo "load     $(cut -d ' ' -f 1-3 /proc/loadavg)"
