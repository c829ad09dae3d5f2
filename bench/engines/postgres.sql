-- The ledger in PostgreSQL, for bench/databases: two tables of :size ids, and what an event and a batch do to them.
--
-- The tables are unlogged, so nothing of them is kept for a restart. There is one client, so no row is locked before it is written.
CREATE UNLOGGED TABLE acct (id integer PRIMARY KEY, value bigint NOT NULL) WITH (fillfactor = 50);
CREATE UNLOGGED TABLE asset (id integer PRIMARY KEY, value bigint NOT NULL) WITH (fillfactor = 50);
INSERT INTO acct SELECT id, 0 FROM generate_series(0, :size - 1) AS id;
INSERT INTO asset SELECT id, 0 FROM generate_series(0, :size - 1) AS id;
ANALYZE acct, asset;

CREATE FUNCTION deposit(ts bigint, account integer, thing integer, a bigint, b bigint) RETURNS text LANGUAGE plpgsql AS $$
DECLARE
    money bigint;
    things bigint;
BEGIN
    SELECT value + a INTO money FROM acct WHERE id = account;
    SELECT value + b INTO things FROM asset WHERE id = thing;
    IF money > 1000000000000 OR things > 1000000000000 THEN
        RETURN ts || ' A';
    END IF;
    UPDATE acct SET value = money WHERE id = account;
    UPDATE asset SET value = things WHERE id = thing;
    RETURN ts || ' C ' || money || ' ' || things;
END $$;

CREATE FUNCTION transfer(ts bigint, src integer, dst integer, asrc integer, adst integer, a bigint, b bigint) RETURNS text LANGUAGE plpgsql AS $$
DECLARE
    money bigint;
    money_there bigint;
    things bigint;
    things_there bigint;
BEGIN
    SELECT value - a INTO money FROM acct WHERE id = src;
    SELECT value - b INTO things FROM asset WHERE id = asrc;
    IF money < 0 OR things < 0 THEN
        RETURN ts || ' A';
    END IF;
    SELECT value + a INTO money_there FROM acct WHERE id = dst;
    SELECT value + b INTO things_there FROM asset WHERE id = adst;
    IF money_there > 1000000000000 OR things_there > 1000000000000 THEN
        RETURN ts || ' A';
    END IF;
    UPDATE acct SET value = money WHERE id = src;
    UPDATE asset SET value = things WHERE id = asrc;
    UPDATE acct SET value = money_there WHERE id = dst;
    UPDATE asset SET value = things_there WHERE id = adst;
    RETURN ts || ' C ' || money || ' ' || things || ' ' || money_there || ' ' || things_there;
END $$;

-- one event: its line
CREATE FUNCTION event(is_deposit boolean, ts bigint, src integer, dst integer, asrc integer, adst integer, a bigint, b bigint) RETURNS text
LANGUAGE plpgsql AS $$
BEGIN
    IF is_deposit THEN
        RETURN deposit(ts, src, asrc, a, b);
    END IF;
    RETURN transfer(ts, src, dst, asrc, adst, a, b);
END $$;

-- the places of some ids in a sorted list that has them all
CREATE FUNCTION places(ids integer[], sorted integer[]) RETURNS integer[] LANGUAGE sql IMMUTABLE AS $$
    SELECT array_agg(width_bucket(id, sorted) ORDER BY number) FROM unnest(ids) WITH ORDINALITY AS each(id, number)
$$;

-- the events of a batch, by rising timestamp: the line of each. The values that the batch names are read once, changed in arrays, and written once,
-- which is two to three times as fast as a statement for each
CREATE FUNCTION batch(is_deposit boolean[], ts bigint[], src integer[], dst integer[], asrc integer[], adst integer[], a bigint[], b bigint[])
RETURNS SETOF text LANGUAGE plpgsql AS $$
DECLARE
    accounts integer[];
    assets integer[];
    money bigint[];
    things bigint[];
    p integer[];
    q integer[];
    r integer[];
    s integer[];
    new_p bigint;
    new_q bigint;
    new_r bigint;
    new_s bigint;
BEGIN
    SELECT array_agg(id), array_agg(value) INTO accounts, money FROM (SELECT id, value FROM acct WHERE id = ANY (src || dst) ORDER BY id) AS named;
    SELECT array_agg(id), array_agg(value) INTO assets, things FROM (SELECT id, value FROM asset WHERE id = ANY (asrc || adst) ORDER BY id) AS named;
    p := places(src, accounts);
    q := places(dst, accounts);
    r := places(asrc, assets);
    s := places(adst, assets);
    FOR i IN 1 .. cardinality(ts) LOOP
        IF is_deposit[i] THEN
            new_p := money[p[i]] + a[i];
            new_r := things[r[i]] + b[i];
            IF new_p > 1000000000000 OR new_r > 1000000000000 THEN
                RETURN NEXT ts[i] || ' A';
                CONTINUE;
            END IF;
            RETURN NEXT ts[i] || ' C ' || new_p || ' ' || new_r;
        ELSE
            new_p := money[p[i]] - a[i];
            new_r := things[r[i]] - b[i];
            new_q := money[q[i]] + a[i];
            new_s := things[s[i]] + b[i];
            IF new_p < 0 OR new_r < 0 OR new_q > 1000000000000 OR new_s > 1000000000000 THEN
                RETURN NEXT ts[i] || ' A';
                CONTINUE;
            END IF;
            money[q[i]] := new_q;
            things[s[i]] := new_s;
            RETURN NEXT ts[i] || ' C ' || new_p || ' ' || new_r || ' ' || new_q || ' ' || new_s;
        END IF;
        money[p[i]] := new_p;
        things[r[i]] := new_r;
    END LOOP;
    UPDATE acct SET value = new.value FROM unnest(accounts, money) AS new(id, value) WHERE acct.id = new.id AND acct.value <> new.value;
    UPDATE asset SET value = new.value FROM unnest(assets, things) AS new(id, value) WHERE asset.id = new.id AND asset.value <> new.value;
END $$;
