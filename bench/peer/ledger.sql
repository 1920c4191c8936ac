-- A ledger as tables and one function in PostgreSQL: the rules of docs/MODEL.md for batches of
-- transfers, judged event by event, with the results' numbers of docs/RESULTS.md. It is here to be
-- measured beside `ledgerd`; accounts are opened by plain inserts.

CREATE TABLE clock (tenant bigint PRIMARY KEY, clock bigint NOT NULL);

CREATE TABLE account (
    tenant bigint NOT NULL REFERENCES clock, id numeric(39) NOT NULL, ledger bigint NOT NULL,
    code int NOT NULL, flags int NOT NULL, at bigint NOT NULL,
    PRIMARY KEY (tenant, id), UNIQUE (tenant, at));

CREATE TABLE transfer (
    tenant bigint NOT NULL REFERENCES clock, id numeric(39) NOT NULL, debit numeric(39) NOT NULL,
    credit numeric(39) NOT NULL, amount numeric(39) NOT NULL, pending_id numeric(39) NOT NULL,
    user_data_128 numeric(39) NOT NULL, user_data_64 numeric(20) NOT NULL,
    user_data_32 bigint NOT NULL, timeout bigint NOT NULL, ledger bigint NOT NULL,
    code int NOT NULL, flags int NOT NULL, at bigint NOT NULL, at_clock bigint NOT NULL,
    PRIMARY KEY (tenant, id), UNIQUE (tenant, at));

CREATE TABLE balance (
    tenant bigint NOT NULL REFERENCES clock, account numeric(39) NOT NULL, dp numeric(39) NOT NULL,
    dd numeric(39) NOT NULL, cp numeric(39) NOT NULL, cc numeric(39) NOT NULL,
    PRIMARY KEY (tenant, account)) WITH (fillfactor = 70);

-- State 0 is open, 1 posted, 2 voided, 3 expired; due 0 is never.
CREATE TABLE status (
    tenant bigint NOT NULL REFERENCES clock, transfer numeric(39) NOT NULL, state int NOT NULL,
    due bigint NOT NULL, PRIMARY KEY (tenant, transfer));

CREATE INDEX open_by_due ON status (tenant, due) WHERE state = 0 AND due > 0;

CREATE TABLE history (
    tenant bigint NOT NULL REFERENCES clock, account numeric(39) NOT NULL, at bigint NOT NULL,
    dp numeric(39) NOT NULL, dd numeric(39) NOT NULL, cp numeric(39) NOT NULL,
    cc numeric(39) NOT NULL, PRIMARY KEY (tenant, account, at));

CREATE TABLE failed (
    tenant bigint NOT NULL REFERENCES clock, id numeric(39) NOT NULL, PRIMARY KEY (tenant, id));

CREATE TYPE event AS (
    id numeric, debit numeric, credit numeric, amount numeric, pending_id numeric,
    user_data_128 numeric, user_data_64 numeric, user_data_32 bigint, timeout bigint,
    ledger bigint, code int, flags int, at bigint);

CREATE FUNCTION greatest_number() RETURNS numeric IMMUTABLE LANGUAGE sql
    RETURN 340282366920938463463374607431768211455;

-- Whether a field of a retry differs; in a post or void one that is left 0 does not.
CREATE FUNCTION differs(ends boolean, sent numeric, stored numeric) RETURNS boolean
    IMMUTABLE LANGUAGE sql RETURN sent <> stored AND NOT (ends AND sent = 0);

-- The result of an event whose id is there.
CREATE FUNCTION compared(old transfer, e event) RETURNS int LANGUAGE plpgsql AS $$
DECLARE
    ends boolean := old.flags & 12 > 0;
    named numeric := old.amount;
    asked numeric := e.amount;
BEGIN
    IF e.flags <> old.flags THEN RETURN 7; END IF;
    IF e.pending_id <> old.pending_id THEN RETURN 8; END IF;
    IF e.timeout <> old.timeout THEN RETURN 9; END IF;
    IF differs(ends, e.debit, old.debit) THEN RETURN 10; END IF;
    IF differs(ends, e.credit, old.credit) THEN RETURN 11; END IF;
    IF ends THEN
        SELECT amount INTO named FROM transfer WHERE tenant = old.tenant AND id = old.pending_id;
    END IF;
    IF old.flags & 4 > 0 AND asked = greatest_number() THEN asked := named; END IF;
    IF old.flags & 8 > 0 AND asked = 0 THEN asked := old.amount; END IF;
    IF old.flags & 48 > 0 THEN
        IF asked < old.amount THEN RETURN 12; END IF;
    ELSIF asked <> old.amount THEN
        RETURN 12;
    END IF;
    IF differs(ends, e.user_data_128, old.user_data_128) THEN RETURN 13; END IF;
    IF differs(ends, e.user_data_64, old.user_data_64) THEN RETURN 14; END IF;
    IF differs(ends, e.user_data_32, old.user_data_32) THEN RETURN 15; END IF;
    IF differs(ends, e.ledger, old.ledger) THEN RETURN 16; END IF;
    IF differs(ends, e.code, old.code) THEN RETURN 17; END IF;
    RETURN 18;
END $$;

-- Writes an accepted transfer with its balances, now and as history.
CREATE FUNCTION keep(t bigint, clk bigint, ts bigint, e event, debit balance, credit balance)
RETURNS void LANGUAGE plpgsql AS $$
BEGIN
    INSERT INTO transfer VALUES (t, e.id, e.debit, e.credit, e.amount, e.pending_id,
        e.user_data_128, e.user_data_64, e.user_data_32, e.timeout, e.ledger, e.code, e.flags, ts,
        clk);
    UPDATE balance SET dp = debit.dp, dd = debit.dd WHERE tenant = t AND account = e.debit;
    UPDATE balance SET cp = credit.cp, cc = credit.cc WHERE tenant = t AND account = e.credit;
    INSERT INTO history VALUES (t, e.debit, ts, debit.dp, debit.dd, debit.cp, debit.cc),
        (t, e.credit, ts, credit.dp, credit.dd, credit.cp, credit.cc);
END $$;

-- A post or void: its result, and its rows if it is accepted.
CREATE FUNCTION judge_end(t bigint, clk bigint, ts bigint, e event) RETURNS int
LANGUAGE plpgsql AS $$
DECLARE
    p transfer;
    s status;
    debit balance;
    credit balance;
    posts boolean := e.flags & 4 > 0;
BEGIN
    IF e.pending_id = 0 THEN RETURN 20; END IF;
    IF e.pending_id = greatest_number() THEN RETURN 21; END IF;
    IF e.pending_id = e.id THEN RETURN 22; END IF;
    IF e.timeout <> 0 THEN RETURN 23; END IF;
    SELECT * INTO p FROM transfer WHERE tenant = t AND id = e.pending_id;
    IF NOT FOUND THEN RETURN 24; END IF;
    SELECT * INTO s FROM status WHERE tenant = t AND transfer = e.pending_id;
    IF NOT FOUND THEN RETURN 25; END IF;
    IF e.debit <> 0 AND e.debit <> p.debit THEN RETURN 26; END IF;
    IF e.credit <> 0 AND e.credit <> p.credit THEN RETURN 27; END IF;
    IF e.ledger <> 0 AND e.ledger <> p.ledger THEN RETURN 28; END IF;
    IF e.code <> 0 AND e.code <> p.code THEN RETURN 29; END IF;
    IF posts AND e.amount = greatest_number() THEN e.amount := p.amount; END IF;
    IF e.amount > p.amount THEN RETURN 30; END IF;
    IF NOT posts AND e.amount <> 0 AND e.amount < p.amount THEN RETURN 31; END IF;
    IF NOT posts THEN e.amount := p.amount; END IF;
    IF s.state > 0 THEN RETURN 31 + s.state; END IF;
    e.debit := p.debit;
    e.credit := p.credit;
    e.ledger := p.ledger;
    e.code := p.code;
    IF e.user_data_128 = 0 THEN e.user_data_128 := p.user_data_128; END IF;
    IF e.user_data_64 = 0 THEN e.user_data_64 := p.user_data_64; END IF;
    IF e.user_data_32 = 0 THEN e.user_data_32 := p.user_data_32; END IF;
    SELECT * INTO debit FROM balance WHERE tenant = t AND account = e.debit;
    SELECT * INTO credit FROM balance WHERE tenant = t AND account = e.credit;
    debit.dp := debit.dp - p.amount;
    credit.cp := credit.cp - p.amount;
    IF posts THEN
        debit.dd := debit.dd + e.amount;
        credit.cc := credit.cc + e.amount;
    END IF;
    UPDATE status SET state = CASE WHEN posts THEN 1 ELSE 2 END
        WHERE tenant = t AND transfer = e.pending_id;
    PERFORM keep(t, clk, ts, e, debit, credit);
    RETURN 0;
END $$;

-- Any other transfer, likewise.
CREATE FUNCTION judge_new(t bigint, clk bigint, ts bigint, e event) RETURNS int
LANGUAGE plpgsql AS $$
DECLARE
    most numeric := greatest_number();
    from_account account;
    to_account account;
    debit balance;
    credit balance;
    waits boolean := e.flags & 2 > 0;
BEGIN
    IF e.debit = 0 THEN RETURN 35; END IF;
    IF e.debit = most THEN RETURN 36; END IF;
    IF e.credit = 0 THEN RETURN 37; END IF;
    IF e.credit = most THEN RETURN 38; END IF;
    IF e.debit = e.credit THEN RETURN 39; END IF;
    IF e.pending_id <> 0 THEN RETURN 40; END IF;
    IF e.timeout <> 0 AND NOT waits THEN RETURN 23; END IF;
    IF e.ledger = 0 THEN RETURN 42; END IF;
    IF e.code = 0 THEN RETURN 43; END IF;
    SELECT * INTO from_account FROM account WHERE tenant = t AND id = e.debit;
    IF NOT FOUND THEN RETURN 44; END IF;
    SELECT * INTO to_account FROM account WHERE tenant = t AND id = e.credit;
    IF NOT FOUND THEN RETURN 45; END IF;
    IF from_account.ledger <> to_account.ledger THEN RETURN 46; END IF;
    IF from_account.ledger <> e.ledger THEN RETURN 47; END IF;
    SELECT * INTO debit FROM balance WHERE tenant = t AND account = e.debit;
    SELECT * INTO credit FROM balance WHERE tenant = t AND account = e.credit;
    IF e.flags & 16 > 0 THEN
        e.amount := least(e.amount, greatest(debit.cc - debit.dp - debit.dd, 0));
    END IF;
    IF e.flags & 32 > 0 THEN
        e.amount := least(e.amount, greatest(credit.dd - credit.cp - credit.cc, 0));
    END IF;
    IF waits AND debit.dp + e.amount > most THEN RETURN 48; END IF;
    IF waits AND credit.cp + e.amount > most THEN RETURN 49; END IF;
    IF debit.dd + e.amount > most THEN RETURN 50; END IF;
    IF credit.cc + e.amount > most THEN RETURN 51; END IF;
    IF debit.dp + debit.dd + e.amount > most THEN RETURN 52; END IF;
    IF credit.cp + credit.cc + e.amount > most THEN RETURN 53; END IF;
    IF from_account.flags & 2 > 0 AND debit.dp + debit.dd + e.amount > debit.cc THEN
        RETURN 55;
    END IF;
    IF to_account.flags & 4 > 0 AND credit.cp + credit.cc + e.amount > credit.dd THEN
        RETURN 56;
    END IF;
    IF waits THEN
        debit.dp := debit.dp + e.amount;
        credit.cp := credit.cp + e.amount;
        INSERT INTO status VALUES (t, e.id, 0,
            CASE WHEN e.timeout = 0 THEN 0 ELSE ts + e.timeout * 1000000000 END);
    ELSE
        debit.dd := debit.dd + e.amount;
        credit.cc := credit.cc + e.amount;
    END IF;
    PERFORM keep(t, clk, ts, e, debit, credit);
    RETURN 0;
END $$;

CREATE FUNCTION judge(t bigint, clk bigint, ts bigint, e event) RETURNS int
LANGUAGE plpgsql AS $$
DECLARE
    old transfer;
BEGIN
    IF e.at <> 0 THEN RETURN 3; END IF;
    IF e.flags >= 64 THEN RETURN 4; END IF;
    IF e.id = 0 THEN RETURN 5; END IF;
    IF e.id = greatest_number() THEN RETURN 6; END IF;
    SELECT * INTO old FROM transfer WHERE tenant = t AND id = e.id;
    IF FOUND THEN RETURN compared(old, e); END IF;
    PERFORM FROM failed WHERE tenant = t AND id = e.id;
    IF FOUND THEN RETURN 60; END IF;
    IF e.flags & 14 NOT IN (0, 2, 4, 8) OR (e.flags & 12 > 0 AND e.flags & 48 > 0) THEN
        RETURN 19;
    END IF;
    IF e.flags & 12 > 0 THEN RETURN judge_end(t, clk, ts, e); END IF;
    RETURN judge_new(t, clk, ts, e);
END $$;

-- What is due at the clock expires.
CREATE FUNCTION settle(t bigint, clk bigint) RETURNS void LANGUAGE plpgsql AS $$
DECLARE
    d record;
BEGIN
    FOR d IN SELECT transfer.* FROM status
        JOIN transfer ON transfer.tenant = status.tenant AND transfer.id = status.transfer
        WHERE status.tenant = t AND state = 0 AND due > 0 AND due <= clk
    LOOP
        UPDATE status SET state = 3 WHERE tenant = t AND transfer = d.id;
        UPDATE balance SET dp = dp - d.amount WHERE tenant = t AND account = d.debit;
        UPDATE balance SET cp = cp - d.amount WHERE tenant = t AND account = d.credit;
    END LOOP;
END $$;

-- A batch: the result of each event. A chain is the events from one place to another.
CREATE FUNCTION send(t bigint, moment bigint, sent event[]) RETURNS int[]
LANGUAGE plpgsql AS $$
DECLARE
    -- A variable's elements are found at once, those of an argument by walking to them.
    batch event[] := sent;
    many int := coalesce(array_length(batch, 1), 0);
    clk bigint;
    results int[] := array_fill(0, ARRAY[many]);
    first int := 1;
    last int;
    failing int;
    result int;
BEGIN
    SELECT greatest(clock, moment) + many INTO clk FROM clock WHERE tenant = t FOR UPDATE;
    IF clk > 4611686018427387904 THEN RAISE EXCEPTION 'clock_exhausted'; END IF;
    UPDATE clock SET clock = clk WHERE tenant = t;
    PERFORM settle(t, clk);
    WHILE first <= many LOOP
        last := first;
        WHILE last < many AND batch[last].flags & 1 > 0 LOOP last := last + 1; END LOOP;
        failing := 0;
        IF first = last AND batch[first].flags & 1 = 0 THEN
            result := judge(t, clk, clk - many + first, batch[first]);
            results[first] := result;
            IF result <> 0 THEN failing := first; END IF;
        ELSE
            BEGIN
                FOR place IN first..last LOOP
                    failing := place;
                    IF place = many AND batch[place].flags & 1 > 0 THEN
                        result := 1;
                    ELSE
                        result := judge(t, clk, clk - many + place, batch[place]);
                    END IF;
                    IF result <> 0 THEN RAISE EXCEPTION SQLSTATE 'LE001'; END IF;
                END LOOP;
                failing := 0;
            EXCEPTION WHEN SQLSTATE 'LE001' THEN
                FOR place IN first..last LOOP results[place] := 2; END LOOP;
                IF last = many AND batch[many].flags & 1 > 0 THEN results[many] := 1; END IF;
                results[failing] := result;
            END;
        END IF;
        IF failing > 0 AND results[failing] IN (24, 44, 45, 55, 56) THEN
            INSERT INTO failed VALUES (t, batch[failing].id);
        END IF;
        first := last + 1;
    END LOOP;
    RETURN results;
END $$;
