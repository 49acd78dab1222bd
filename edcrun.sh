#!/usr/bin/env bash
# Runs edcrun on standard input. Where it has not been built yet, it is proved, with the libraries below it, and linked first.
cd "$(dirname "$0")/crates/edcrun" || exit 2
if [ ! -x out/edcrun ]; then
  rt run < /dev/null > /dev/null || exit 1
fi
exec out/edcrun
