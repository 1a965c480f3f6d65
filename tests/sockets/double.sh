#!/bin/sh
# The program that is the double of `rv serve` and `rv call`: it runs tests.sockets.double, wherever it is started, with none of the machine's
# packages. The tests of the tests name an interpreter, and a copy of its modules that is compiled.
PYTHONPATH="${RV_COMPILED:-${0%/*}/../..}" exec "${RV_PYTHON:-python3}" -BS -m tests.sockets.double "$@"
