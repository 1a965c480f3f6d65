#!/bin/sh
# The program that is the double of `rv host`: it runs tests.host.double, wherever it is started, with none of the machine's packages,
# and that of tests/sockets for what is neither a host's nor `verify` of an account alone. The tests of the tests name an interpreter,
# and a copy of its modules that is compiled.
folder=sockets
case "$1 $#" in "host "* | "verify 2") folder=host ;; esac
PYTHONPATH="${RV_COMPILED:-${0%/*}/../..}" exec "${RV_PYTHON:-python3}" -BS -m "tests.$folder.double" "$@"
