-- The tables that `load` fills: psql -f schema.sql, once.

-- The cases of all keepers.
create table cases (
    keeper text not null,
    number bigint not null,             -- of the case in that keeper's archive
    kind text not null,                 -- core or exec
    name text not null,                 -- as a script of corekeep has it: spaces and bytes that do not print are \xHH
    pid bigint,
    signal text,                        -- SIGSEGV, or the number of one without a name
    time numeric(20),                   -- seconds since 1970, as the machine gave it
    at timestamptz,                     -- the same; null from the year 10000 on
    size bigint not null,               -- bytes of the image
    label text,
    escaped boolean not null,           -- the label is as a script has it: it isn't UTF-8, or has control characters
    pinned boolean not null,
    seen timestamptz not null default now(),    -- when it was first loaded
    gone timestamptz,                   -- when it was no longer in the archive
    -- an archive that is made anew counts from 1 again: then the name or the size is another
    primary key (keeper, number, name, size)
);

create index on cases (at);
create index on cases (keeper) where gone is null;

-- When each keeper was last loaded.
create table loads (
    keeper text primary key,
    at timestamptz not null
);
