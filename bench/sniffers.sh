#!/bin/sh
# How long all four sniffers of CORB take for a window of 1,024 bytes, and the two tables of signatures, beside `httparse` on a request
# head of ten fields. Times are wall-clock nanoseconds a call, the least of nine rounds; each round goes over 16 copies of the window.
#
# It clones the repository into a scratch folder, adds a program there, and runs it. Nothing here is part of the gate.
set -e
. "$(dirname "$0")/lib.sh"
clone orb_bytes signatures corb_sniffers
build sniffer_speed 'signatures corb_sniffers httparse'
"$scratch/sniffer_speed"
