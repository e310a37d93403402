#!/usr/bin/env bash
# Compares the two tables of journals with the rows that they are written from.
set -u
cd "$(dirname "$0")/.." || exit 1

status=0
for table in antt:proofs/Journals.antt rust:src/rows.rt; do
    file=crates/journal_rule/${table#*:}
    if ! tools/journals_to_lemmas.py "${table%%:*}" rows/lawful.journals | cmp -s - "$file"; then
        echo "journals: $file isn't what tools/journals_to_lemmas.py writes"
        status=1
    fi
done
[ "$status" = 0 ] && echo "journals: both tables are those of the rows"
exit "$status"
