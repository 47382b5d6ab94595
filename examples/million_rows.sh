#!/bin/sh
# Makes a large catalogue, and the same texts as a table for SQLite: million_rows.sh FOLDER [CRSS [SPELLINGS]].
# FOLDER/lines.txt has the lines of tests/big_catalogue.py, of 100,000 CRSs in 10 spellings if no numbers are given;
# FOLDER/table.db has the table texts, whose row N has line N in the column wkt.
set -e
maker=$(dirname -- "$0")/../tests/big_catalogue.py
if [ -z "$1" ] || [ ! -e "$maker" ]; then
    echo "usage, in crsdesk's repository: examples/million_rows.sh FOLDER [CRSS [SPELLINGS]]" >&2
    exit 2
fi
mkdir -p -- "$1"
python3 "$maker" "${2:-100000}" "${3:-10}" >"$1/lines.txt"
rm -f -- "$1/table.db"
cd -- "$1"
sqlite3 table.db <<END
CREATE TABLE texts (wkt TEXT NOT NULL);
.mode ascii
.separator "\037" "\n"
.import lines.txt texts
END
