#!/usr/bin/env bash
# Builds the archive that C and Rust programs link, target/staticlib/libmsdtp.a. The first time that takes some minutes, since only
# proved code is built.
set -eu
cd "$(dirname "$0")"
(cd crates/msdtp && rt lib)
mkdir -p target/staticlib
cp crates/msdtp/out/libmsdtp.a target/staticlib/libmsdtp.a
