#!/bin/sh
# Proves and builds the static library for C and Rust, and hands it on under the name by which its callers link it:
# target/staticlib/libdoarpezwim.a. The toolchain names an archive after its crate, doarpezwim_c.
set -eu
unset RT_BACKEND # with it rt builds by another compiler
cd "$(dirname "$0")/.."
(cd crates/doarpezwim_c && rt lib </dev/null)
mkdir -p target/staticlib
cp crates/doarpezwim_c/out/libdoarpezwim_c.a target/staticlib/libdoarpezwim.a.new
mv target/staticlib/libdoarpezwim.a.new target/staticlib/libdoarpezwim.a
