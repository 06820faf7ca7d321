#!/usr/bin/env bash
# SPDX-License-Identifier: MIT
# Unpacks the archive of make dist in a bare system and does every common job with it there.
#
# usage: tools/run checks/bare ROOT ARCHIVE    ROOT is the root of a system with Python alone, as debootstrap --include=python3 makes it
# Not part of the gate, since it needs such a system, and root to change into it.
set -eu
[ $# = 2 ] || { sed -n '5s/^# //p' "$0" >&2; exit 2; }
root=$(realpath "$1")
archive=$(realpath "$2")
top=$(realpath "$(dirname "$0")/../..")
work=$(mktemp -d "$root/tmp/bare.XXXXXX")
trap 'rm -rf "$work"' EXIT
"$top/tools/run" images/table "$work"
tar -xzf "$archive" -C "$work"
cat > "$work/jobs" <<'JOBS'
set -eu
cd "$1"
unset FCORE FCONVERT
cd fcore-*; sha256sum --quiet -c SHA256SUMS; cd ..
PATH=$(echo "$PWD"/fcore-*/bin):$PATH
passed=0
is() { passed=$((passed + 1)); if [ "$2" != "$3" ]; then echo "$1: wanted $2, got $3"; exit 1; fi; }
status() { if "$@" > /dev/null 2>&1; then echo 0; else echo $?; fi; }
is list '1 file, 0 directories, 8 bytes' "$(fcdisc list f-user.adf '$.!Boot' | tail -n 1)"
is check 'f-user.adf: whole' "$(fcdisc check f-user.adf | cut -d ' ' -f 1,2 | cut -d ':' -f 1,2)"
is 'check of a damaged disc' 1 "$(status fcdisc check d-twin.adf)"
is get '| boots' "$(fcdisc get f-user.adf '$.!Boot.!Run' -)"
is extract '41 of 41 files written to user' "$(fcdisc extract f-user.adf user)"
fcdisc new F+ new.adf
is add '41 of 41 files added to new.adf' "$(fcdisc add new.adf user)"
echo Hello > note.txt
fcdisc put new.adf note.txt '$.Note'
is put Hello "$(fcdisc get new.adf '$.Note' -)"
fcdisc put --replace --type ffb new.adf note.txt '$.Note'
is type ffb "$(fcdisc list new.adf '$.Note' | cut -c 1-3 | head -n 1)"
fcdisc mkdir new.adf '$.Inner'
fcdisc mv new.adf '$.Note' '$.Inner.Letter'
is mv Hello "$(fcdisc get new.adf '$.Inner.Letter' -)"
fcdisc access new.adf LWR '$.Inner.Letter'
is 'a locked file stays' 1 "$(status fcdisc rm new.adf '$.Inner.Letter')"
fcdisc access new.adf WR '$.Inner.Letter'
fcdisc rm -r new.adf '$.Inner'
fcdisc compact new.adf > /dev/null
is compact 'new.adf: whole' "$(fcdisc check new.adf | cut -d ' ' -f 1,2 | cut -d ':' -f 1,2)"
fcdisc convert E+ new.adf converted.adf > /dev/null
is convert 'converted.adf: whole' "$(fcdisc check converted.adf | cut -d ' ' -f 1,2 | cut -d ':' -f 1,2)"
fcdisc adl --back l-files.adf sides.adl
fcdisc adl sides.adl sides.adf
is adl 0 "$(status cmp l-files.adf sides.adf)"
head -c 512 /dev/zero | cat - f-user.adf > header.adf
fcdisc strip header.adf plain.adf
is strip 0 "$(status cmp f-user.adf plain.adf)"
number=$(cat fcore-*/VERSION)
is version "fcdisc $number, for fcore $number" "$(fcdisc --version)"
cp f-user.adf mine.adf
fcdisc cp mine.adf '$.!Boot.!Run' '$.Docs'
is cp '| boots' "$(fcdisc get mine.adf '$.Docs.!Run' -)"
is diff 1 "$(status fcdisc diff f-user.adf mine.adf)"
fcdisc undo mine.adf
is undo 0 "$(cmp f-user.adf mine.adf && echo 0)"
fcdisc extract f-user.adf user.zip > /dev/null
is 'a zip archive' 0 "$(status fcdisc diff f-user.adf user.zip)"
is rescue 'd-twin: 5' "d-twin: $(fcdisc rescue d-twin.adf rescued 2> /dev/null | cut -d ' ' -f 3)"
is reclaim 'e-files.adf: 6144 bytes given back' "$(fcdisc reclaim e-files.adf)"
is types 'tex   2a8' "$(fcdisc types | tail -n 1)"
is mend 0 "$(status fcdisc mend d-word.adf mended.adf)"
is 'no guess unasked' 1 "$(status fcdisc mend d-check.adf guessed.adf; ls guessed.adf 2> /dev/null || true)"
is 'mend by a guess' '1 0' "$(status fcdisc mend --guess d-check.adf guessed.adf) $(status fcdisc check guessed.adf)"
mkdir discs; cp f-user.adf hello.adf discs
is find '1 object in 1 image' "$(fcdisc find discs '!Run' | tail -n 1)"
is catalogue 0 "$(status fcdisc catalogue discs)"
is 'extract --each' '42 files of 2 discs written to all' "$(fcdisc extract --each discs all | tail -n 1)"
is 'fconvert itself' 'converted files 41 dirs 3' "$(fconvert L f-user.adf l.adf)"
is 'fcore itself' 'free 1525760 421888' "$(printf 'free\n' | fcore f-user.adf | head -n 1)"
echo "bare: $passed jobs done in $(. /etc/os-release; echo "$PRETTY_NAME"), $(python3 --version)"
JOBS
# fcore gets its image as /dev/fd/N, which is in /proc; both are mounted for this run alone
unshare -m sh -c 'mount --bind /proc "$1/proc" && mount --bind /dev "$1/dev" && exec chroot "$1" /bin/sh "$2/jobs" "$2"' \
  sh "$root" "/tmp/$(basename "$work")"
