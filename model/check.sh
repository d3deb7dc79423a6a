#!/usr/bin/env bash
# The model's own tests, and then each table of the rows verified: how many rows were compared, and how many differ.
set -eu
cd "$(dirname "${BASH_SOURCE[0]}")/.."
python3 -m pytest -q model
python3 -m model.tables.check "$@"
