-- The tolls of position reports in SQL (SQLite 3.40 or later), for bench/tolls, which fills `report`, then `outcome` from one of two views, and reads
-- `line` and `closing`.
--
-- A report of a vehicle on a segment, in the order of time: the segment's average speed becomes half of the sum of itself and the new speed, or the
-- new speed if it is 0, as it is at first; the segment has one entry more, unless the vehicle was on it before; and the vehicle pays
-- 2 (entries - 50)^2 if the segment's average was below 40 miles per hour and its entries above 50, both before the report. Averages are in
-- hundredths of a mile per hour, and rounded down. A report that would take the vehicle's bill above 1,000,000 changes nothing.
CREATE TABLE report (number INTEGER PRIMARY KEY, ts INTEGER UNIQUE, vehicle INTEGER, segment INTEGER, speed INTEGER);
CREATE TABLE outcome (ts INTEGER PRIMARY KEY, vehicle INTEGER, segment INTEGER, commits INTEGER, average INTEGER, entries INTEGER, bill INTEGER);
CREATE TABLE visit (segment INTEGER, place INTEGER, ts INTEGER, speed INTEGER, PRIMARY KEY (segment, place));

-- Outcomes as they are if no bill reaches its limit, by windows; only the averages are a recursion, along the reports of a segment. `visit` has
-- to be filled from `visits`.
CREATE VIEW visits AS
SELECT segment, row_number() OVER (PARTITION BY segment ORDER BY ts) AS place, ts, speed FROM report;

CREATE VIEW averages AS
WITH RECURSIVE along (segment, place, ts, before, after) AS (
    SELECT segment, place, ts, 0, 100 * speed FROM visit WHERE place = 1
    UNION ALL
    SELECT visit.segment, visit.place, visit.ts, along.after,
        CASE along.after WHEN 0 THEN 100 * visit.speed ELSE (along.after + 100 * visit.speed) / 2 END
    FROM along JOIN visit ON visit.segment = along.segment AND visit.place = along.place + 1
)
SELECT ts, before, after FROM along;

CREATE VIEW unlimited AS
WITH entered AS (
    SELECT *, lag(segment) OVER (PARTITION BY vehicle ORDER BY ts) IS NOT segment AS enters FROM report
), counted AS (
    SELECT *, sum(enters) OVER (PARTITION BY segment ORDER BY ts) AS entries FROM entered
), charged AS (
    SELECT *, CASE WHEN before < 4000 AND entries - enters > 50 THEN 2 * (entries - enters - 50) * (entries - enters - 50) ELSE 0 END AS toll
    FROM counted JOIN averages USING (ts)
)
SELECT ts, vehicle, segment, 1 AS commits, after AS average, entries, sum(toll) OVER (PARTITION BY vehicle ORDER BY ts) AS bill FROM charged;

-- Outcomes with the limit, one report after the other: the state is an object with what is known of each segment (averages and entries) and vehicle
-- (places and bills), and with what came of the last report.
CREATE VIEW limited AS
WITH RECURSIVE run (number, state) AS (
    SELECT 0, '{"average": {}, "entries": {}, "place": {}, "bill": {}, "last": null}'
    UNION ALL
    SELECT report.number, (
        SELECT CASE WHEN bill > 1000000 THEN json_set(state, '$.last', NULL) ELSE json_set(
            state, '$.average' || of_segment, average, '$.entries' || of_segment, entries, '$.place' || of_vehicle, segment,
            '$.bill' || of_vehicle, bill, '$.last', json_array(average, entries, bill)
        ) END
        FROM (
            SELECT of_segment, of_vehicle, CASE average WHEN 0 THEN 100 * speed ELSE (average + 100 * speed) / 2 END AS average,
                entries + (place IS NOT segment) AS entries,
                bill + CASE WHEN average < 4000 AND entries > 50 THEN 2 * (entries - 50) * (entries - 50) ELSE 0 END AS bill
            FROM (
                SELECT of_segment, of_vehicle, ifnull(json_extract(state, '$.average' || of_segment), 0) AS average,
                    ifnull(json_extract(state, '$.entries' || of_segment), 0) AS entries, json_extract(state, '$.place' || of_vehicle) AS place,
                    ifnull(json_extract(state, '$.bill' || of_vehicle), 0) AS bill
                FROM (SELECT '.s' || segment AS of_segment, '.v' || vehicle AS of_vehicle)
            )
        )
    )
    FROM run JOIN report ON report.number = run.number + 1
)
SELECT ts, vehicle, segment, json_extract(state, '$.last') IS NOT NULL AS commits, json_extract(state, '$.last[0]') AS average,
    json_extract(state, '$.last[1]') AS entries, json_extract(state, '$.last[2]') AS bill
FROM run JOIN report USING (number);

-- the line of each report, and the closing lines
CREATE VIEW line AS
SELECT ts, CASE WHEN commits THEN printf('%d C %d %d %d %d', ts, average, segment + 1, entries, bill) ELSE ts || ' A' END AS text FROM outcome;

CREATE VIEW last_of_segment AS SELECT segment, average, entries, max(ts) FROM outcome WHERE commits GROUP BY segment;
CREATE VIEW last_of_vehicle AS SELECT vehicle, segment, bill, max(ts) FROM outcome WHERE commits GROUP BY vehicle;

CREATE VIEW closing AS
SELECT 0 AS part, segment AS id, 'spd ' || segment || ' ' || average AS text FROM last_of_segment WHERE average <> 0
UNION ALL SELECT 1, vehicle, 'at ' || vehicle || ' ' || (segment + 1) FROM last_of_vehicle
UNION ALL SELECT 2, segment, 'cnt ' || segment || ' ' || entries FROM last_of_segment WHERE entries <> 0
UNION ALL SELECT 3, vehicle, 'bill ' || vehicle || ' ' || bill FROM last_of_vehicle WHERE bill <> 0
UNION ALL SELECT 4, 0, 'committed ' || sum(commits) || ' aborted ' || sum(1 - commits) FROM outcome;
