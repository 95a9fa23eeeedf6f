#!/bin/sh
# What the documents say to an author, by the compilers and the browser that they name. It is run by hand, and is no part
# of the gate. Its status is 0 where all is as it must be; of what is not there a line says so. It needs python3 and cc.
exec python3 "$(dirname "$0")/author.py" "$@" </dev/null
