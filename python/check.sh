#!/usr/bin/env bash
# Runs last in the gate. Tests the Python package with a program that was built. Says so where there is no python3 to
# test it.
#     python/check.sh PROGRAM
set -u
program=$(realpath "$1") || exit 1
cd "$(dirname "$0")" || exit 1
if ! command -v python3 >/dev/null || ! python3 -c 'import sys; sys.exit(sys.version_info < (3, 9))'; then
  echo "The Python package isn't tested: there is no python3, or one before 3.9"
  exit 0
fi
# What a python3 has no package for is compared by another one that has it, such as the system's.
missing() { for name in networkx numpy pandas; do "$1" -c "import $name" 2>/dev/null || echo "$name"; done; }
export KCORE=$program PYTHONDONTWRITEBYTECODE=1
lacks=$(missing python3)
python3 -W error::ResourceWarning -m unittest -q || exit 1
other=/usr/bin/python3
if [ -n "$lacks" ] && [ -x $other ] && $other -c 'import sys; sys.exit(sys.version_info < (3, 9))'; then
  left=$(comm -12 <(echo "$lacks" | sort) <(missing $other | sort))
  if [ "$left" != "$(echo "$lacks" | sort)" ]; then
    $other -W error::ResourceWarning -m unittest -q || exit 1
    lacks=$left
  fi
fi
for name in $lacks; do
  echo "The Python package isn't compared with $name: it isn't there"
done
