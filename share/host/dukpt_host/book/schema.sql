-- The book of payments and reversals, for PostgreSQL 14 and later. Its owner runs this file once, in an
-- empty database, by psql --file schema.sql: all of it counts or nothing does. The owner may make roles
-- and grant pg_read_all_stats, as a superuser may. A host needs no more than what is granted at the end.
--
-- Numbers are key serial numbers of 10 bytes. That a number is kept once is the word of the index of
-- dukpt.number; no host has a lock, a lease or a clock of its own.

\set ON_ERROR_STOP on
begin;

create schema dukpt;
-- A host serves over no book of another form.
comment on schema dukpt is 'The book of payments and reversals, form 1';

-- The initial key serial number of a number: without the 21 bits of its counter.
create function dukpt.terminal_of(ksn bytea) returns bytea language sql immutable as
$$ select substr(ksn, 1, 7) || set_byte('\x000000', 0, get_byte(ksn, 7) & 224) $$;

create table dukpt.terminal (
    iksn bytea primary key check (octet_length(iksn) = 10)
);
comment on table dukpt.terminal is
    'The terminals, by their initial key serial numbers: payments and reversals of one are settled one'
    ' group after the other';

create table dukpt.number (
    ksn bytea primary key check (octet_length(ksn) = 10),
    kind smallint not null,
    mac bytea,
    amount bigint check (amount between 0 and 4294967295),
    code smallint check (code in (0, 14, 30, 51, 55)),
    reverses bytea check (octet_length(reverses) = 10 and reverses <> ksn),
    state smallint check (state in (0, 1)),
    kept_at timestamptz not null default now(),
    reversed_by bytea,
    reversed_at timestamptz,
    constraint fields_of_kind check (
        case kind
            -- A number without a request: a reversal came before it.
            when 0 then num_nulls(mac, amount, code, reverses, state) = 5 and reversed_by is not null
            -- A payment.
            when 1 then num_nonnulls(mac, amount, code) = 3 and num_nulls(reverses, state) = 2
            -- A reversal.
            when 2 then num_nonnulls(mac, reverses, state) = 3 and num_nulls(amount, code) = 2
                and dukpt.terminal_of(reverses) = dukpt.terminal_of(ksn)
            else false
        end),
    check (octet_length(mac) = 8),
    check ((reversed_by is null) = (reversed_at is null))
);
comment on table dukpt.number is 'The numbers that are used, each with what was kept of it';
comment on column dukpt.number.kind is
    '1: a payment; 2: a reversal; 0: no request came before a reversal of the number';
comment on column dukpt.number.code is 'What the reply to a payment says: 0 is approved';
comment on column dukpt.number.reverses is 'The number that a reversal reverses';
comment on column dukpt.number.state is
    'What the reply to a reversal says: 1, an approved payment is undone; 0, none stands';
comment on column dukpt.number.reversed_by is 'The first reversal of the number';

create view dukpt.standing as
    select ksn, amount, mac, kept_at from dukpt.number
    where kind = 1 and code = 0 and reversed_by is null;
comment on view dukpt.standing is 'The payments that stand: approved, and not undone';

-- Keeps a group of payments (kind 1) and reversals (kind 2), which are settled in turn, and answers for
-- each what came of it: the code that is kept of a payment, the state that is kept of a reversal, or
-- null where its number is used by another one. `reversals` has the numbers that reversals reverse.
--
-- It takes the terminals of the group first, always in one order, so that no two groups wait for each
-- other. Behind that no other group changes what is kept of them, and each statement below sees all
-- that was committed: the isolation is to be `read committed`. It also makes even a group of repeats a
-- transaction that writes. The end of such a one waits for the standby, and with it all that the group
-- has read: of a commit whose wait was cancelled that is not there yet.
--
-- Its plans are made once for each connection, perhaps when the book is empty: they look each number up
-- in the index, however large the book becomes.
create function dukpt.settle(
    kinds smallint[], numbers bytea[], macs bytea[], amounts bigint[], codes smallint[],
    reversals bytea[]
) returns smallint[] language plpgsql security definer set search_path = pg_catalog, pg_temp
set plan_cache_mode = force_generic_plan set enable_seqscan = off set enable_hashjoin = off
set enable_mergejoin = off as
$$
declare
    it record;
    -- The reversals of the group that are kept: their places, and the numbers that they reverse.
    kept bigint[] := '{}';
    undone bytea[] := '{}';
    answers smallint[];
begin
    insert into dukpt.terminal (iksn)
    select distinct dukpt.terminal_of(ksn) as iksn from unnest(numbers) as ksn order by iksn
    on conflict (iksn) do update set iksn = excluded.iksn where false;

    -- Of the candidates with one number the first alone can be kept: a number stays used.
    if 2 = any (kinds) then
        for it in
            select first.* from (
                select distinct on (ksn) given.*
                from unnest(kinds, numbers, reversals) with ordinality
                    as given (kind, ksn, reverses, place)
                order by ksn, place) as first
            where kind = 2
                and not exists (select from dukpt.number as used where used.ksn = first.ksn)
            order by place
        loop
            if it.ksn <> all (undone) then
                kept := kept || it.place;
                undone := undone || it.reverses;
            end if;
        end loop;
    end if;

    insert into dukpt.number (ksn, kind, mac, amount, code)
    select ksn, kind, mac, amount, code from (
        select distinct on (ksn) given.*
        from unnest(kinds, numbers, macs, amounts, codes) with ordinality
            as given (kind, ksn, mac, amount, code, place)
        order by ksn, place) as first
    where kind = 1 and not exists (
        select from unnest(kept, undone) as earlier (place, reverses)
        where earlier.reverses = first.ksn and earlier.place < first.place)
    on conflict (ksn) do nothing;

    -- A payment of the group that a reversal finds now was kept before it.
    insert into dukpt.number (ksn, kind, mac, reverses, state)
    select numbers[given.place], 2, macs[given.place], given.reverses, (exists (
        select from dukpt.number as paid
        where paid.ksn = given.reverses and paid.kind = 1 and paid.code = 0))::integer
    from unnest(kept, undone) as given (place, reverses);

    -- The same one again has what is kept, unless it is a payment that was reversed by then. A payment
    -- reverses nothing.
    select array_agg((
        select coalesce(entry.code, entry.state) from dukpt.number as entry
        where entry.ksn = given.ksn and entry.mac = given.mac
            and entry.reverses is not distinct from given.reverses
            and (entry.kind = 2 or entry.reversed_by is null and not exists (
                select from unnest(kept, undone) as earlier (place, reverses)
                where earlier.reverses = given.ksn and earlier.place < given.place))
        ) order by given.place) into answers
    from unnest(numbers, macs, reversals) with ordinality as given (ksn, mac, reverses, place);

    insert into dukpt.number as reversed (ksn, kind, reversed_by, reversed_at)
    select distinct on (reverses) reverses, 0, numbers[place], now()
    from unnest(kept, undone) as given (place, reverses)
    order by reverses, place
    on conflict (ksn) do update
    set reversed_by = excluded.reversed_by, reversed_at = excluded.reversed_at
    where reversed.reversed_by is null;
    return answers;
end
$$;

-- The role of the hosts. It has no password yet.
do $$
begin
    if not exists (select from pg_roles where rolname = 'dukpt_host') then
        create role dukpt_host login;
    end if;
end
$$;
-- They see the standbys, read the book, and change it by that function alone.
grant pg_read_all_stats to dukpt_host;
grant usage on schema dukpt to dukpt_host;
grant select on dukpt.terminal, dukpt.number, dukpt.standing to dukpt_host;
revoke all on function dukpt.settle from public;
grant execute on function dukpt.settle to dukpt_host;

commit;
