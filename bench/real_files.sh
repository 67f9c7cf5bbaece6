#!/bin/bash
# Runs the built program over real files that are none, that can't be read or written, and on a full disk.
#
# usage: bench/real_files.sh        (as root, since it mounts a disk of 1 MiB and runs as another user, by setpriv; else it leaves these out, and says so)
#
# For each two names of each command: one that leads to the file of the other, as `./records` does. For each name: a folder, a file that is not there, one below a file, and one that the user may not read or write; then a folder in
# which nothing may be stored, a disk that is full, `/dev/full`, and output that is full, closed, or read by nobody. Each run has to end with the status
# and the line that docs/commands.md gives, with the files before the one that failed stored whole, that one with some first bytes or as it was,
# and all later ones as they were. The last line counts the runs; the first that ends otherwise is printed, and ends the script with status 1.
#
# At the end stands what comes of one file by a link: no name shows it, so a hard link and a symbolic link to a file that is read, or to another
# that is written, are taken. What then holds is printed, and not judged.
set -eu
. "$(dirname "$0")/lib.sh"
find_program
exec python3 "$top/bench/hostile/real_files.py" "$program"
