#!/usr/bin/env bash
# Prints the scripts that are dearest in memory, for a try by hand: examples/dearest.sh | ./play
#   examples/dearest.sh           33,000 stale savepoints of one name over 1,000 keys
#   examples/dearest.sh writes    21,800 of them, each with a write behind it
# Both stay within the 1,048,576 bytes that a script may have.
set -eu
echo 'pool 1 0 5 - - ----'
echo 'ask 0 1'
echo 'poll 0 1 1 ++++'
echo 'begin 0 1 1 +'
for ((key = 0; key < 1000; key++)); do
  echo "put 0 1 1 $key 1 +"
done
case ${1:-stale} in
  stale)
    for ((n = 0; n < 33000; n++)); do
      printf 'begin 0 1 1 +\nrollback 0 1 1 +\n'
    done
    ;;
  writes)
    for ((n = 0; n < 21800; n++)); do
      printf 'begin 0 1 1 +\nrollback 0 1 1 +\nput 0 1 1 0 2 +\n'
    done
    ;;
  *)
    echo "usage: examples/dearest.sh [writes]" >&2
    exit 2
    ;;
esac
