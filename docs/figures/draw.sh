#!/usr/bin/env bash
# Draws the figures of docs/ again. They need nothing but Python 3.
set -eu
cd "$(dirname "$0")"
for figure in stages removal newest reduction growth bars crates computed; do python3 "$figure.py"; done
rm -rf __pycache__
