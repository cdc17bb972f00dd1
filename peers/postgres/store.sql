-- The store in PostgreSQL, as the source documents set it up: triple tables with an index for each of the six orders of columns, the
-- kept facts with their supports as document 01 defines them. Words are bigint. Times are by the clock inside one session, in
-- nanoseconds; a commit is not counted.

CREATE UNLOGGED TABLE given (s bigint NOT NULL, p bigint NOT NULL, o bigint NOT NULL);
CREATE UNLOGGED TABLE statement (s bigint NOT NULL, p bigint NOT NULL, o bigint NOT NULL, PRIMARY KEY (s, p, o));
CREATE UNLOGGED TABLE fact (s bigint NOT NULL, p bigint NOT NULL, o bigint NOT NULL);
CREATE UNLOGGED TABLE kept (s bigint NOT NULL, p bigint NOT NULL, o bigint NOT NULL, support bigint NOT NULL);

-- The statements closed, by the kinds of document 01's alternatives: 1 subclass, 2 domain, 3 range, 4 subproperty; of 1 and 4 it has all
-- pairs that one or more steps join, also those of a term and itself. Kind 5 is domain or range, for a fact whose object is its subject.
-- turn is 1 for what a change of statements brings, -1 for what it takes away.
CREATE UNLOGGED TABLE closed (
    kind int NOT NULL, source bigint NOT NULL, target bigint NOT NULL, turn int NOT NULL DEFAULT 0, PRIMARY KEY (kind, source, target)
);
CREATE INDEX closed_targets ON closed (kind, target);

-- The statements that questions match: subclasses and subproperties closed, which is done when statements change, domains and ranges as
-- they are explicit.
CREATE VIEW stated AS
    SELECT source AS s, 2::bigint AS p, target AS o FROM closed WHERE kind = 1
    UNION ALL
    SELECT source, 3, target FROM closed WHERE kind = 4
    UNION ALL
    SELECT s, p, o FROM statement WHERE p IN (4, 5);

-- What the table of closed statements should hold.
CREATE VIEW closure AS
    WITH RECURSIVE
        step (property, source, target) AS (
            SELECT p, s, o FROM statement WHERE p IN (2, 3)
            UNION
            SELECT step.property, step.source, t.o FROM step JOIN statement t ON t.p = step.property AND t.s = step.target
        ),
        stated (kind, property, class) AS (
            SELECT (p - 2)::int, s, o FROM statement WHERE p IN (4, 5)
        ),
        inherited (kind, property, class) AS (
            SELECT * FROM stated
            UNION
            SELECT i.kind, t.source, i.class FROM stated i JOIN step t ON t.property = 3 AND t.target = i.property
        ),
        typed (kind, source, target) AS (
            SELECT * FROM inherited
            UNION
            SELECT i.kind, i.property, t.target FROM inherited i JOIN step t ON t.property = 2 AND t.source = i.class
        )
    SELECT CASE property WHEN 2 THEN 1 ELSE 4 END AS kind, source, target FROM step
    UNION ALL
    SELECT kind, source, target FROM typed
    UNION
    SELECT 5, source, target FROM typed;

-- What each explicit fact (fs, fp, fo) carries, each row once.
CREATE VIEW carried AS
    SELECT s AS fs, p AS fp, o AS fo, s, p, o, 0 AS turn FROM fact
    UNION ALL
    SELECT f.s, f.p, f.o, f.s, 1, c.target, turn FROM fact f JOIN closed c ON c.kind = 1 AND f.p = 1 AND c.source = f.o
       AND c.source <> c.target
    UNION ALL
    SELECT f.s, f.p, f.o, f.s, 1, c.target, turn FROM fact f JOIN closed c ON c.kind = 2 AND c.source = f.p AND f.s <> f.o
    UNION ALL
    SELECT f.s, f.p, f.o, f.o, 1, c.target, turn FROM fact f JOIN closed c ON c.kind = 3 AND c.source = f.p AND f.s <> f.o
       AND f.o < 2147483648
    UNION ALL
    SELECT f.s, f.p, f.o, f.s, c.target, f.o, turn FROM fact f JOIN closed c ON c.kind = 4 AND c.source = f.p
       AND c.source <> c.target
    UNION ALL
    SELECT f.s, f.p, f.o, f.s, 1, c.target, turn FROM fact f JOIN closed c ON c.kind = 5 AND c.source = f.p AND f.s = f.o;

-- The time since a moment, in nanoseconds.
CREATE FUNCTION since(start timestamptz) RETURNS bigint LANGUAGE sql
RETURN round(extract(epoch FROM clock_timestamp() - start) * 1e9);

-- The six indexes of a table of facts, the first of them unique.
CREATE PROCEDURE make_indexes(name text) LANGUAGE plpgsql AS $$
DECLARE
    columns text;
BEGIN
    EXECUTE format('CREATE UNIQUE INDEX %1$s_s_p_o ON %1$s (s, p, o)', name);
    FOREACH columns IN ARRAY ARRAY['s, o, p', 'p, s, o', 'p, o, s', 'o, s, p', 'o, p, s'] LOOP
        EXECUTE format('CREATE INDEX %1$s_%2$s ON %1$s (%3$s)', name, replace(columns, ', ', '_'), columns);
    END LOOP;
    EXECUTE format('ANALYZE %s', name);
END $$;

-- A table of facts without rows and indexes.
CREATE PROCEDURE drop_indexes(name text) LANGUAGE plpgsql AS $$
DECLARE
    columns text;
BEGIN
    FOREACH columns IN ARRAY ARRAY['s_p_o', 's_o_p', 'p_s_o', 'p_o_s', 'o_s_p', 'o_p_s'] LOOP
        EXECUTE format('DROP INDEX IF EXISTS %s_%s', name, columns);
    END LOOP;
    EXECUTE format('TRUNCATE %s', name);
END $$;

-- Works the kept facts out afresh.
CREATE PROCEDURE saturate() LANGUAGE plpgsql AS $$
BEGIN
    TRUNCATE closed;
    INSERT INTO closed SELECT * FROM closure;
    ANALYZE closed;
    CALL drop_indexes('kept');
    INSERT INTO kept SELECT s, p, o, count(*) FROM carried GROUP BY s, p, o ORDER BY s, p, o;
    CALL make_indexes('kept');
END $$;

-- Loads the triples given into an empty store, and saturates it.
CREATE FUNCTION load() RETURNS bigint LANGUAGE plpgsql AS $$
DECLARE
    start timestamptz := clock_timestamp();
BEGIN
    CALL drop_indexes('fact');
    DELETE FROM statement;
    INSERT INTO statement SELECT * FROM given WHERE p BETWEEN 2 AND 5;
    INSERT INTO fact SELECT * FROM given WHERE p NOT BETWEEN 2 AND 5 ORDER BY s, p, o;
    CALL make_indexes('fact');
    ANALYZE statement;
    CALL saturate();
    RETURN since(start);
END $$;

-- A fact that is not there enters: the support of all it carries rises.
CREATE FUNCTION add_fact(a bigint, b bigint, c bigint) RETURNS bigint LANGUAGE plpgsql AS $$
DECLARE
    start timestamptz := clock_timestamp();
BEGIN
    INSERT INTO fact VALUES (a, b, c);
    INSERT INTO kept AS k SELECT s, p, o, 1 FROM carried WHERE fs = a AND fp = b AND fo = c
        ON CONFLICT (s, p, o) DO UPDATE SET support = k.support + 1;
    RETURN since(start);
END $$;

-- A fact that is there leaves: the support of all it carries falls, and rows at 0 go. Row by row, so that each is found by its index.
CREATE FUNCTION withdraw_fact(a bigint, b bigint, c bigint) RETURNS bigint LANGUAGE plpgsql AS $$
DECLARE
    start timestamptz := clock_timestamp();
    gone record;
BEGIN
    FOR gone IN SELECT s, p, o FROM carried WHERE fs = a AND fp = b AND fo = c LOOP
        UPDATE kept k SET support = support - 1 WHERE k.s = gone.s AND k.p = gone.p AND k.o = gone.o AND support > 1;
        IF NOT FOUND THEN
            DELETE FROM kept k WHERE k.s = gone.s AND k.p = gone.p AND k.o = gone.o;
        END IF;
    END LOOP;
    DELETE FROM fact WHERE s = a AND p = b AND o = c;
    RETURN since(start);
END $$;

-- A statement enters or leaves: the supports change by what the facts carry through the closed statements that are
-- brought or taken away, and rows at 0 go.
CREATE FUNCTION change_statement(enters boolean, a bigint, b bigint, c bigint) RETURNS bigint LANGUAGE plpgsql AS $$
DECLARE
    start timestamptz := clock_timestamp();
BEGIN
    IF enters THEN
        INSERT INTO statement VALUES (a, b, c);
    ELSE
        DELETE FROM statement WHERE s = a AND p = b AND o = c;
    END IF;
    UPDATE closed SET turn = -1 WHERE (kind, source, target) NOT IN (SELECT * FROM closure);
    INSERT INTO closed SELECT kind, source, target, 1 FROM closure ON CONFLICT DO NOTHING;
    INSERT INTO kept AS k SELECT s, p, o, sum(turn) FROM carried WHERE turn <> 0 GROUP BY s, p, o HAVING sum(turn) <> 0
        ON CONFLICT (s, p, o) DO UPDATE SET support = k.support + EXCLUDED.support;
    DELETE FROM kept WHERE support = 0;
    DELETE FROM closed WHERE turn = -1;
    UPDATE closed SET turn = 0 WHERE turn = 1;
    RETURN since(start);
END $$;

-- Answers a question so many times: the times, from the text to the last row in memory.
CREATE FUNCTION timed(question text, runs int) RETURNS SETOF bigint LANGUAGE plpgsql AS $$
DECLARE
    start timestamptz;
BEGIN
    FOR i IN 1 .. runs LOOP
        start := clock_timestamp();
        EXECUTE question;
        RETURN NEXT since(start);
    END LOOP;
END $$;

-- Updates by the triples given, one after another: how long they take together.
CREATE FUNCTION update_given(adds boolean) RETURNS bigint LANGUAGE plpgsql AS $$
DECLARE
    triple record;
    total bigint := 0;
BEGIN
    FOR triple IN SELECT * FROM given LOOP
        total := total + CASE
            WHEN triple.p BETWEEN 2 AND 5 THEN change_statement(adds, triple.s, triple.p, triple.o)
            WHEN adds THEN add_fact(triple.s, triple.p, triple.o)
            ELSE withdraw_fact(triple.s, triple.p, triple.o)
        END;
    END LOOP;
    RETURN total;
END $$;
