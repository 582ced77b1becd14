#!/usr/bin/env bash
# built.sh NAME: has rt prove and build the program NAME, and prints its path. rt also runs it, on no input; what that prints is not shown.
set -euo pipefail
cd "$(dirname "$0")/../crates/$1"
said=$(rt run </dev/null 2>&1) || { printf '%s\n' "$said" >&2; exit 1; }
echo "$PWD/out/$1"
