-- Views for a dashboard, over the tables of schema.sql: psql -f queries.sql, again after each change.

-- The cores, with the parts of their names, by the templates core.%u.%h.%e.%p.%t and core.%h.%e.%p.%t. A host whose name has dots gives
-- only what comes before the first one: the rest counts as the program. Under any other template the whole name is the program.
create or replace view cores as
    select c.*, found[1] as user_id, found[2] as host, coalesce(found[3], name) as program
    from cases c left join lateral regexp_match(name, '^core\.(?:(\d+)\.)?([^.]*)\.(.+)\.\d+\.\d+$') found on true
    where kind = 'core';

create or replace view crashes_by_day as
    select (at at time zone 'UTC')::date as day, count(*) as crashes, count(distinct (host, program)) as programs
    from cores where at is not null group by 1 order by 1 desc;

create or replace view crashes_by_program as
    select program, signal, count(*) as crashes, count(distinct host) as hosts, min(at) as first, max(at) as last
    from cores group by 1, 2 order by crashes desc, program;

-- keep-core labels no cores; `label = "host7"` in the configuration of `handle` does, and so may people.
create or replace view crashes_by_label as
    select coalesce(label, host, '-') as label, count(*) as crashes, count(distinct program) as programs, max(at) as last
    from cores group by 1 order by crashes desc, label;

-- What each keeper has now, and when it was last loaded: one that is hours behind isn't loaded any more.
create or replace view keepers as
    select l.keeper, count(*) filter (where kind = 'core' and gone is null) as cores,
        count(*) filter (where kind = 'exec' and gone is null) as executables,
        count(*) filter (where pinned and gone is null) as pinned,
        coalesce(sum(size) filter (where gone is null), 0) as bytes, l.at as loaded
    from loads l left join cases c using (keeper) group by l.keeper, l.at order by 1;
