#!/usr/bin/env bash
# Makes an archive of format 3 of one of format 2, by sqlite3: all rows, under the same ids.
#
#     examples/use/convert.sh OLD NEW
#
# OLD is a file, or a folder of parts (000001.db and on), and stays as it is; nobody may have it open (`database is locked`).
# NEW may not be there yet. It is made beside, in a folder NEW.XXXXXX, written to the disk, and gets its name last: so at
# any moment, killed or not, NEW is there whole or not at all. A run that is killed leaves that folder, which may be deleted.
#
# What format 2 doesn't have is NULL: a device's name, its clock and when it answered last, what a log's values are of and
# their units. When an archive was made isn't on record either: NEW has the moment at which it is made. An epoch begins
# with `numbers came round` where the row before it ends at 4294967295, and else with `began anew, or dropped records`.
set -eu
[ $# -eq 2 ] || { echo 'usage: convert.sh OLD NEW' >&2; exit 1; }
old=$(realpath -- "$1")
new=$(realpath -s -- "$2")
if [ -e "$new" ] || [ -L "$new" ]; then
    echo "$2: it is there already" >&2
    exit 1
fi
moment=$(date -u '+%Y-%m-%d %H:%M:%S')
room=$(mktemp -d "$new.XXXXXX")
trap 'rm -rf -- "$room"' EXIT
trap 'exit 1' HUP INT TERM

# quoted TEXT: as a text of SQL
quoted() { printf "'%s'" "${1//\'/\'\'}"; }

# failed OLD: tells why
failed() {
    echo "$1: $(sed -n '1s/^.*error near line [0-9]*: //; 1s/^CHECK constraint failed: //; 1s/ ([0-9]*)$//; 1p' "$room/errors")" >&2
    exit 1
}

# one OLD NEW BEFORE: makes the file NEW of the file OLD; BEFORE is what was made of the part before, or nothing.
one() {
    local before=${3:-:memory:} beside=() status=0
    [ -e "$1-shm" ] || beside+=("$1-shm")
    [ -e "$1-wal" ] || beside+=("$1-wal")
    # OLD's own log stays beside it: it isn't written back as OLD is closed.
    sqlite3 -batch -bail "$2" > "$room/said" 2> "$room/errors" <<SQL || status=$?
.dbconfig no_ckpt_on_close on
PRAGMA journal_mode = WAL;
ATTACH $(quoted "$1") AS old;
ATTACH $(quoted "$before") AS part;
CREATE TABLE IF NOT EXISTS part.beginnings (id INTEGER PRIMARY KEY, number INTEGER NOT NULL, why TEXT) STRICT;
BEGIN;
CREATE TEMP TABLE format (version INTEGER CONSTRAINT "it is not of format 2" CHECK (version = 2));
CREATE TEMP TABLE place (devices INTEGER CONSTRAINT "two devices are at one place" CHECK (devices < 2));
INSERT INTO format SELECT version FROM old.archive;
INSERT INTO place SELECT count(DISTINCT device) FROM old.logs GROUP BY address, dnet, dadr;
CREATE TABLE archive (version INTEGER PRIMARY KEY, made TEXT NOT NULL) STRICT;
CREATE TABLE devices (id INTEGER PRIMARY KEY, address TEXT NOT NULL, dnet INTEGER NOT NULL, dadr TEXT NOT NULL, instance INTEGER, name TEXT, revision INTEGER, whole INTEGER NOT NULL, stopped INTEGER NOT NULL, answered TEXT, offset INTEGER, UNIQUE (address, dnet, dadr)) STRICT;
CREATE TABLE logs (id INTEGER PRIMARY KEY, device INTEGER NOT NULL, instance INTEGER NOT NULL, name TEXT, source TEXT, units TEXT, description TEXT, restart TEXT, revision INTEGER, stopped INTEGER NOT NULL, UNIQUE (device, instance)) STRICT;
CREATE TABLE items (id INTEGER PRIMARY KEY, last INTEGER, stamp TEXT, value REAL, datum TEXT, flags TEXT) STRICT;
CREATE TABLE beginnings (id INTEGER PRIMARY KEY, number INTEGER NOT NULL, why TEXT) STRICT;
CREATE VIEW records AS SELECT d.address AS address, d.instance AS device, l.instance AS trend_log, l.name AS name, l.source AS source, l.units AS units, (i.id >> 32) & 32767 AS epoch, i.id & 4294967295 AS number, i.stamp AS stamp, i.value AS value, i.datum AS datum, i.flags AS flags FROM items i JOIN logs l ON l.id = i.id >> 47 JOIN devices d ON d.id = l.device WHERE i.last IS NULL;
CREATE VIEW gaps AS SELECT d.address AS address, d.instance AS device, l.instance AS trend_log, l.name AS name, (i.id >> 32) & 32767 AS epoch, i.id & 4294967295 AS first, i.last AS last, i.datum IS NOT NULL AS doubtful FROM items i JOIN logs l ON l.id = i.id >> 47 JOIN devices d ON d.id = l.device WHERE i.last IS NOT NULL;
CREATE VIEW epochs AS SELECT d.address AS address, d.instance AS device, l.instance AS trend_log, l.name AS name, b.id & 32767 AS epoch, b.number AS beginning, b.why AS why FROM beginnings b JOIN logs l ON l.id = b.id >> 15 JOIN devices d ON d.id = l.device;
CREATE VIEW newest AS SELECT d.address AS address, d.instance AS device, l.instance AS trend_log, l.name AS name, l.source AS source, l.units AS units, (SELECT n.id & 4294967295 FROM items n WHERE n.id >= l.id << 47 AND n.id <= (l.id << 47) + 140737488355327 AND n.last IS NULL ORDER BY n.id DESC LIMIT 1) AS number, (SELECT n.stamp FROM items n WHERE n.id >= l.id << 47 AND n.id <= (l.id << 47) + 140737488355327 AND n.last IS NULL ORDER BY n.id DESC LIMIT 1) AS stamp, (SELECT n.value FROM items n WHERE n.id >= l.id << 47 AND n.id <= (l.id << 47) + 140737488355327 AND n.last IS NULL ORDER BY n.id DESC LIMIT 1) AS value, d.answered AS answered FROM logs l JOIN devices d ON d.id = l.device WHERE l.stopped = 0 AND d.stopped = 0;
INSERT INTO archive (version, made) VALUES (3, '$moment');
-- A device is a place. It isn't asked any more where none of its logs is.
INSERT INTO devices (id, address, dnet, dadr, instance, whole, stopped)
    SELECT row_number() OVER (ORDER BY min(id)), address, dnet, dadr, max(device), 0, min(stopped)
    FROM old.logs GROUP BY address, dnet, dadr;
INSERT INTO logs (id, device, instance, name, restart, revision, stopped)
    SELECT l.id, d.id, l.instance, l.name, l.restart, l.revision, l.stopped
    FROM old.logs l JOIN main.devices d ON d.address = l.address AND d.dnet = l.dnet AND d.dadr = l.dadr;
INSERT INTO items SELECT id, last, stamp, value, datum, flags FROM old.items;
-- Of an epoch that the part before has, why it began is on record there.
INSERT INTO beginnings (id, number, why)
    SELECT b.id, b.number, CASE WHEN p.id IS NOT NULL THEN p.why WHEN b.id & 32767 = 0 THEN NULL
        WHEN (SELECT coalesce(i.last, i.id & 4294967295) = 4294967295 FROM old.items i
              WHERE i.id < b.id << 32 AND i.id >= (b.id - 1) << 32 ORDER BY i.id DESC LIMIT 1) THEN 'numbers came round'
        ELSE 'began anew, or dropped records' END
    FROM old.beginnings b LEFT JOIN part.beginnings p ON p.id = b.id;
COMMIT;
DETACH old;
.dbconfig no_ckpt_on_close off
DETACH part;
SQL
    [ ${#beside[@]} -eq 0 ] || rm -f -- "${beside[@]}"
    [ "$status" -eq 0 ] && [ ! -e "$2-wal" ] || failed "$1"
    chmod --reference="$1" -- "$2"
}

if [ -d "$old" ]; then
    made=$room/parts
    mkdir "$made"
    before=
    for part in "$old"/*.db; do
        # A newest part of which only the file is there has nothing yet: keep makes it anew.
        [ -s "$part" ] || [ -s "$part-wal" ] || continue
        one "$part" "$made/${part##*/}" "$before"
        before=$made/${part##*/}
    done
    [ -n "$before" ] || { echo "$1: there is no part in it" >&2; exit 1; }
    chmod --reference="$old" -- "$made"
    sync -- "$made"/*.db "$made"
    # No folder is replaced: one that came meanwhile has to be empty.
    mv -nT -- "$made" "$new"
    [ ! -e "$made" ] || { echo "$2: it is there already" >&2; exit 1; }
else
    made=$room/file
    one "$old" "$made" ''
    sync -- "$made"
    # A name of its own is given only where there is none.
    ln -- "$made" "$new"
fi
sync -- "$(dirname -- "$new")"
