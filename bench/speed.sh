#!/bin/sh
# Nanoseconds of each operation in the proved library and in plain C, alternately in one run, and the ratio (1.00 is as
# fast as plain C).
exec "$(dirname "$0")/run.sh" bench speed speed.c plain.c -- "$@"
