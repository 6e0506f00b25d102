#!/bin/sh
# How many bytes a second a `Filter` passes on of one image of 100 MB, in pieces of 8,192 bytes, into a sink that
# counts, beside a plain copy of the same pieces.
#
# It clones the repository into a scratch folder, adds a program there, and runs it. Nothing here is part of
# the gate.
set -e
. "$(dirname "$0")/lib.sh"
clone orb_bytes orb_io mime_types header_values signatures media_state response_rules body_filter
build filter_speed 'orb_io header_values media_state response_rules body_filter'
"$scratch/filter_speed"
