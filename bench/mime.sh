#!/bin/sh
# How many bytes a second `MimeType::parse` reads, for texts of 10 kB, 100 kB and 1 MB.
#
# A word of a command line can't be as long, so this measures the library: it clones the repository
# into a scratch folder, adds a program there, and runs it. Nothing here is part of the gate.
set -e
. "$(dirname "$0")/lib.sh"
clone orb_bytes orb_io mime_types
build mime_speed mime_types
"$scratch/mime_speed"
