#!/bin/sh
# install.sh [--remove] [FOLDER]: copies what stands beside it to / or to the given folder, for systems without dpkg, or
# removes it again. Shows, logs and the account stay.
set -eu

remove=
if [ "${1:-}" = --remove ]; then
  remove=1
  shift
fi
to=${1:-}
cd "$(dirname "$0")"
find usr \( -type f -o -type l \) | while IFS= read -r file; do
  if [ -n "$remove" ]; then
    rm -f "$to/$file"
  else
    mkdir -p "$to/$(dirname "$file")"
    cp -P --remove-destination "$file" "$to/$file"
  fi
done
if [ -z "$to$remove" ] && [ -e usr/lib/sysusers.d/cuectl.conf ]; then
  systemd-sysusers cuectl.conf
fi
if [ -z "$to" ] && [ -d /run/systemd/system ]; then
  systemctl daemon-reload
fi
