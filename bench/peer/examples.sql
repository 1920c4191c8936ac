-- The worked examples of docs/MODEL.md, each from the base, by the function of `ledger.sql`.
SET client_min_messages = warning;
CREATE FUNCTION base() RETURNS void LANGUAGE plpgsql AS $$
BEGIN
    TRUNCATE clock CASCADE;
    INSERT INTO clock VALUES (1, 4);
    INSERT INTO account
        SELECT 1, id, 7, 10, CASE id WHEN 3 THEN 10 ELSE 0 END, id FROM generate_series(1, 4) AS id;
    INSERT INTO balance SELECT 1, id, 0, 0, 0, 0 FROM generate_series(1, 4) AS id;
END $$;

CREATE FUNCTION e(id numeric, debit numeric, credit numeric, amount numeric, flags int = 0,
    timeout bigint = 0) RETURNS event LANGUAGE sql
    RETURN (id, debit, credit, amount, 0, 0, 0, 0, timeout, 7, 1, flags, 0)::event;

CREATE FUNCTION ending(id numeric, pending_id numeric, amount numeric, flags int = 4,
    debit numeric = 0) RETURNS event LANGUAGE sql
    RETURN (id, debit, 0, amount, pending_id, 0, 0, 0, 0, 0, 0, flags, 0)::event;

CREATE FUNCTION answers(what text, wants int[], told int[]) RETURNS void LANGUAGE plpgsql AS $$
BEGIN
    IF wants <> told THEN RAISE EXCEPTION '%: %, and not %', what, told, wants; END IF;
END $$;

DO $$
DECLARE
    most numeric := greatest_number();
BEGIN
    PERFORM base();
    PERFORM answers('posted in part', '{0, 0, 32}', send(1, 0,
        ARRAY[e(100, 1, 2, 100, 2), ending(101, 100, 40), ending(102, 100, 60)]));
    PERFORM answers('a post retried', '{18, 12}', send(1, 0,
        ARRAY[ending(101, 100, 40), ending(101, 100, 41)]));
    PERFORM base();
    PERFORM answers('posted in time', '{0}', send(1, 0, ARRAY[e(100, 1, 2, 100, 2, 1)]));
    PERFORM answers('posted in time', '{0}', send(1, 1000000003, ARRAY[ending(101, 100, most)]));
    PERFORM base();
    PERFORM answers('posted too late', '{0}', send(1, 0, ARRAY[e(100, 1, 2, 100, 2, 1)]));
    PERFORM answers('posted too late', '{34}', send(1, 1000000004, ARRAY[ending(101, 100, most)]));
    PERFORM base();
    PERFORM answers('a chain falls whole', '{2, 55, 2}', send(1, 0,
        ARRAY[e(100, 1, 2, 10, 1), e(101, 3, 2, 10, 1), e(102, 1, 4, 10)]));
    PERFORM base();
    PERFORM answers('a chain left open', '{2, 1}', send(1, 0,
        ARRAY[e(100, 1, 2, 10, 1), e(101, 1, 2, 10, 1)]));
    PERFORM base();
    PERFORM answers('balancing, and its retries', '{0, 0, 0, 12, 18}', send(1, 0,
        ARRAY[e(100, 1, 3, 50), e(101, 3, 2, 20), e(102, 3, 2, most, 16), e(102, 3, 2, 29, 16),
        e(102, 3, 2, 30, 16)]));
    PERFORM base();
    PERFORM answers('a sum too large', '{0, 50}', send(1, 0,
        ARRAY[e(100, 1, 2, most), e(101, 1, 2, 1)]));
    PERFORM base();
    PERFORM answers('pending and post in one chain', '{0, 0}', send(1, 0,
        ARRAY[e(100, 1, 2, 70, 3), ending(101, 100, most)]));
    PERFORM answers('the same again', '{18, 2}', send(1, 0,
        ARRAY[e(100, 1, 2, 70, 3), ending(101, 100, most)]));
    PERFORM base();
    PERFORM answers('voided', '{0, 31, 0}', send(1, 0,
        ARRAY[e(100, 1, 2, 100, 2), ending(101, 100, 99, 8), ending(101, 100, 0, 8)]));
    PERFORM base();
    PERFORM answers('pending amounts count against a limit', '{0, 0, 55}', send(1, 0,
        ARRAY[e(100, 1, 3, 50), e(101, 3, 2, 50, 2), e(102, 3, 2, 1)]));
    PERFORM base();
    PERFORM answers('another debit account', '{0, 26}', send(1, 0,
        ARRAY[e(100, 1, 2, 5, 2), ending(101, 100, 5, 4, 2)]));
    PERFORM base();
    PERFORM answers('a reserved flag comes first', '{4}', send(1, 0, ARRAY[e(0, 0, 0, 0, 64)]));
    PERFORM base();
    PERFORM answers('overflow, pending and both', '{0, 48, 52, 49, 53}', send(1, 0,
        ARRAY[e(100, 1, 2, most, 2), e(101, 1, 2, 1, 2), e(102, 1, 2, 1), e(103, 4, 2, 1, 2),
        e(104, 4, 2, 1)]));
    PERFORM base();
    PERFORM answers('both balancing flags', '{0, 0, 0, 0}', send(1, 0,
        ARRAY[e(100, 2, 1, 30), e(101, 2, 4, 20), e(102, 1, 2, most, 48),
        e(103, 1, 2, most, 32)]));
    PERFORM base();
    PERFORM answers('an event behind a fallen chain', '{2, 45, 0}', send(1, 0,
        ARRAY[e(100, 1, 2, 10, 1), e(101, 1, 9, 10), e(102, 1, 2, 5)]));
    PERFORM base();
    PERFORM answers('an open chain that fails before its end', '{45, 2, 1}', send(1, 0,
        ARRAY[e(100, 1, 9, 1, 1), e(101, 1, 2, 1, 1), e(102, 1, 2, 1, 1)]));
    PERFORM base();
    PERFORM answers('an id twice in one chain', '{2, 7}', send(1, 0,
        ARRAY[e(100, 1, 2, 1, 1), e(100, 1, 2, 1)]));
    PERFORM base();
    PERFORM answers('failed ids', '{44}', send(1, 0, ARRAY[e(100, 9, 2, 10)]));
    PERFORM answers('failed ids', '{60}', send(1, 0, ARRAY[e(100, 1, 2, 10)]));
    PERFORM answers('failed ids', '{24, 60}', send(1, 0,
        ARRAY[ending(102, 77, 5), ending(102, 77, 5)]));
    PERFORM answers('failed ids', '{2, 55}', send(1, 0,
        ARRAY[e(103, 1, 2, 1, 1), e(104, 3, 2, 1)]));
    PERFORM answers('failed ids', '{60, 0}', send(1, 0, ARRAY[e(104, 1, 2, 1), e(103, 1, 2, 1)]));
    PERFORM answers('failed ids', '{4, 60}', send(1, 0,
        ARRAY[e(104, 1, 2, 1, 64), e(104, 1, 2, 1, 6)]));
END $$;

SELECT 'all answers are those of docs/MODEL.md';
