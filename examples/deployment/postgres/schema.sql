-- The store for several collectors at once, in PostgreSQL 13 or later. The frame itself can't be the key, since an index row has at most 2,704 bytes
-- and a frame 8,192. A collector calls star_put in a transaction of its own and answers 200 after the commit; leave synchronous_commit on.

CREATE TABLE epochs (epoch bigint PRIMARY KEY, terms text NOT NULL, most integer NOT NULL, kept integer NOT NULL DEFAULT 0);
CREATE TABLE reports (epoch bigint, digest bytea, frame bytea NOT NULL, PRIMARY KEY (epoch, digest)) PARTITION BY LIST (epoch);
CREATE TABLE door (week bigint, outcome text, number bigint NOT NULL, PRIMARY KEY (week, outcome));

-- Makes an epoch, if it isn't there, for reports under these terms. An epoch of other terms is an error.
CREATE FUNCTION star_epoch(of_epoch bigint, with_terms text, with_most integer) RETURNS void LANGUAGE plpgsql AS $$
BEGIN
    PERFORM pg_advisory_xact_lock(hashtext('star'), 0);
    IF NOT EXISTS (SELECT FROM epochs WHERE epoch = of_epoch) THEN
        EXECUTE format('CREATE TABLE reports_%s PARTITION OF reports FOR VALUES IN (%s)', of_epoch, of_epoch);
        INSERT INTO epochs VALUES (of_epoch, with_terms, with_most);
    ELSIF (SELECT terms FROM epochs WHERE epoch = of_epoch) <> with_terms THEN
        RAISE EXCEPTION 'the reports of epoch % were taken under other terms', of_epoch;
    END IF;
END $$;

-- Adds reports of an epoch while there is room. The row of the epoch is locked until the commit, so the limit holds for all collectors together.
CREATE FUNCTION star_put(of_epoch bigint, frames bytea[], OUT new integer, OUT known integer, OUT no_room integer) LANGUAGE plpgsql AS $$
DECLARE
    one bytea;
    room integer;
BEGIN
    SELECT most - kept INTO STRICT room FROM epochs WHERE epoch = of_epoch FOR UPDATE;
    new := 0; known := 0; no_room := 0;
    FOREACH one IN ARRAY frames LOOP
        IF EXISTS (SELECT FROM reports WHERE epoch = of_epoch AND digest = sha256(one)) THEN
            known := known + 1;
        ELSIF new < room THEN
            INSERT INTO reports VALUES (of_epoch, sha256(one), one);
            new := new + 1;
        ELSE
            no_room := no_room + 1;
        END IF;
    END LOOP;
    UPDATE epochs SET kept = kept + new WHERE epoch = of_epoch;
END $$;

-- Deletes what is kept of an epoch. Only for one whose reports aren't taken any more.
CREATE FUNCTION star_forget(of_epoch bigint) RETURNS void LANGUAGE plpgsql AS $$
BEGIN
    EXECUTE format('DROP TABLE IF EXISTS reports_%s', of_epoch);
    DELETE FROM epochs WHERE epoch = of_epoch;
END $$;

-- The stream of an epoch, for star_tool reveal: each report after its length.
--   COPY (SELECT frame FROM reports WHERE epoch = E ORDER BY frame) TO STDOUT by a client that writes frames.record(frame) for each row.
