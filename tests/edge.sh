#!/bin/sh
# What no contract pins: the built program on real files and pipes, and the script that builds and runs it.
# Its status is 0 where all is as it must be. It needs python3.
exec python3 "$(dirname "$0")/edge.py" "$@" </dev/null
