#!/bin/sh
# Runs the proved calls on exactly-sized heap blocks under valgrind; any read or write outside them fails the run.
set -eu
cd "$(dirname "$0")"
cargo build --offline --release -p doarpezwim --example lent
exec valgrind --error-exitcode=1 --leak-check=no target/release/examples/lent
