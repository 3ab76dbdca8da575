-- Beside the tables of a database that is there already: jobs, and a note of each fire that was run.

create extension if not exists varpsilt;

create table jobs (
    id bigint primary key,
    expression cron not null,
    zone text not null,
    rule text not null check (rule in ('as_shown', 'once')),
    last timestamptz not null,                -- the last fire that was noted, or where the job begins
    due timestamptz generated always as (next(expression, last, zone, rule)) stored -- null where it fires no more
);

create index on jobs (due);

create table fires (
    job bigint not null references jobs,
    moment timestamptz not null,
    place bigint not null,                    -- by the rule `once` matches that a clock passes over together share their moment
    primary key (job, moment, place)
);
