-- A warehouse of the trend logs of many sites: tables, views and two roles, in a schema of its own. The database's owner
-- runs this once, as a user who may create roles:
--
--     psql -d buildings -f warehouse.sql
--
-- Who loads is a member of bac_loader, who reads of bac_reader. docs/WAREHOUSE.md says how it is used.
\set ON_ERROR_STOP on
BEGIN;

CREATE SCHEMA bac;

-- The version of these tables. `load` takes this one alone.
CREATE TABLE bac.warehouse (version integer PRIMARY KEY);
INSERT INTO bac.warehouse VALUES (1);

-- A site is an archive: a file of `bac keep`, or a folder of parts.
CREATE TABLE bac.sites (
    site integer GENERATED ALWAYS AS IDENTITY PRIMARY KEY,
    name text NOT NULL UNIQUE,
    made text, -- when its archive was made, in UTC: each other archive has another moment; NULL of format 2
    zone text  -- by which its stamps become moments; NULL: by each device's offset on record
);

-- Columns are those of the archive. NULL is what a device refused to tell, and what an archive of format 2 doesn't have.
CREATE TABLE bac.devices (
    site integer,
    device integer,
    address text NOT NULL,  -- A.B.C.D:PORT, of the device or of the router to it
    dnet integer NOT NULL,  -- the network behind the router, or 0
    dadr text NOT NULL,     -- the address there, or nothing
    instance bigint,
    name text,
    revision bigint,
    whole boolean,
    stopped boolean,
    answered timestamptz,
    clock_offset integer,   -- its clock less the keeper's, in seconds
    PRIMARY KEY (site, device)
);

CREATE TABLE bac.logs (
    site integer,
    log integer,
    device integer NOT NULL,
    instance bigint NOT NULL,
    name text,
    source text,
    units text,
    description text,
    restart text,
    revision bigint,
    stopped boolean NOT NULL,
    epoch integer, -- of the newest record that is loaded, as in bac.records: what lies behind it is new
    number bigint,
    at timestamptz,
    value double precision,
    stamp text,
    datum text,
    flags text,
    PRIMARY KEY (site, log)
);

CREATE TABLE bac.epochs (
    site integer,
    log integer,
    epoch integer,
    beginning bigint NOT NULL, -- from this number on each one is in a record or in a gap
    why text,
    PRIMARY KEY (site, log, epoch)
);

CREATE TABLE bac.records (
    site integer,
    log integer,
    epoch integer,
    number bigint,
    at timestamptz,         -- NULL where the stamp is no moment, as where a part of it is unspecified
    value double precision, -- NULL where the datum is no number
    stamp text,             -- as it came: the device's local time
    datum text,
    flags text,             -- in-alarm, fault, overridden, out-of-service
    PRIMARY KEY (site, log, epoch, number)
);
-- A log's day.
CREATE INDEX records_at ON bac.records (site, log, at);

-- A restored archive may show a longer gap than the one that was loaded: both stand here, and bac.missing has the truth.
CREATE TABLE bac.gaps (
    site integer,
    log integer,
    epoch integer,
    first bigint,
    last bigint,
    doubtful boolean, -- whether the log may have begun anew in place of losing these; NULL of format 2
    PRIMARY KEY (site, log, epoch, first, last)
);

-- ---- for people and dashboards

CREATE VIEW bac.trend_logs AS
    SELECT s.name AS site, d.address, d.dnet, d.dadr, d.instance AS device, d.name AS device_name,
        l.instance AS trend_log, l.name, l.source, l.units, l.description,
        l.stopped OR coalesce(d.stopped, false) AS stopped, l.site AS site_number, l.log
    FROM bac.sites s JOIN bac.logs l ON l.site = s.site JOIN bac.devices d ON d.site = l.site AND d.device = l.device;

-- The records of all logs.
CREATE VIEW bac.trends AS
    SELECT l.site, l.address, l.dnet, l.dadr, l.device, l.device_name, l.trend_log, l.name, l.source, l.units,
        r.epoch, r.number, r.at, r.value, r.stamp, r.datum, r.flags
    FROM bac.trend_logs l JOIN bac.records r ON r.site = l.site_number AND r.log = l.log;

-- Of each log that isn't stopped the newest record, and when its device answered last.
CREATE VIEW bac.newest AS
    SELECT t.site, t.address, t.dnet, t.dadr, t.device, t.device_name, t.trend_log, t.name, t.source, t.units,
        l.epoch, l.number, l.at, l.value, l.stamp, l.datum, l.flags, d.answered
    FROM bac.trend_logs t JOIN bac.logs l ON l.site = t.site_number AND l.log = t.log
    JOIN bac.devices d ON d.site = l.site AND d.device = l.device
    WHERE NOT t.stopped;

-- The records of the last 24 hours.
CREATE VIEW bac.last_day AS SELECT * FROM bac.trends WHERE at > now() - interval '1 day' AND at <= now();

-- Of each hour of a log how many records have a number, and their mean, least and greatest.
CREATE VIEW bac.hourly AS
    SELECT l.site, l.address, l.dnet, l.dadr, l.device, l.device_name, l.trend_log, l.name, l.source, l.units,
        h.hour, h.records, h.mean, h.least, h.greatest
    FROM bac.trend_logs l CROSS JOIN LATERAL (
        SELECT date_trunc('hour', r.at) AS hour, count(*) AS records, avg(r.value) AS mean, min(r.value) AS least,
            max(r.value) AS greatest
        FROM bac.records r
        WHERE r.site = l.site_number AND r.log = l.log AND r.at IS NOT NULL AND r.value IS NOT NULL
        GROUP BY 1) h;

-- The numbers that no record has: what logs had dropped before they were asked.
CREATE VIEW bac.missing AS
    SELECT DISTINCT l.site, l.address, l.dnet, l.dadr, l.device, l.device_name, l.trend_log, l.name,
        g.epoch, m.first, m.last, g.doubtful
    FROM bac.trend_logs l JOIN bac.gaps g ON g.site = l.site_number AND g.log = l.log
    CROSS JOIN LATERAL (
        SELECT n.before + 1 AS first, n.number - 1 AS last FROM (
            SELECT number, lag(number, 1, g.first - 1) OVER (ORDER BY number) AS before FROM (
                SELECT r.number FROM bac.records r WHERE r.site = g.site AND r.log = g.log AND r.epoch = g.epoch
                    AND r.number BETWEEN g.first AND g.last
                UNION ALL SELECT g.last + 1) numbers) n
        WHERE n.number > n.before + 1) m;

-- Where epochs begin, and why.
CREATE VIEW bac.beginnings AS
    SELECT l.site, l.address, l.dnet, l.dadr, l.device, l.device_name, l.trend_log, l.name, e.epoch, e.beginning, e.why
    FROM bac.trend_logs l JOIN bac.epochs e ON e.site = l.site_number AND e.log = l.log;

-- ---- who may do what

DO $$ BEGIN
    IF NOT EXISTS (SELECT FROM pg_roles WHERE rolname = 'bac_loader') THEN CREATE ROLE bac_loader; END IF;
    IF NOT EXISTS (SELECT FROM pg_roles WHERE rolname = 'bac_reader') THEN CREATE ROLE bac_reader; END IF;
END $$;
GRANT USAGE ON SCHEMA bac TO bac_loader, bac_reader;
GRANT SELECT ON ALL TABLES IN SCHEMA bac TO bac_loader, bac_reader;
GRANT INSERT, UPDATE ON bac.sites, bac.devices, bac.logs, bac.epochs, bac.records, bac.gaps TO bac_loader;

COMMIT;
