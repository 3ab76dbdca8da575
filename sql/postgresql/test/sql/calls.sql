-- What is answered, beside what was counted by hand: each query lists the rows that differ.
set datestyle = 'ISO, YMD';
set timezone = 'UTC';
create table wanted (expression cron, at timestamptz, zone text, after timestamptz, before timestamptz);
insert into wanted values
    ('0 30 9 * * Mon-Fri', '2024-01-01Z', 'America/Chicago', '2024-01-01 15:30Z', '2023-12-29 15:30Z'),
    ('30 9 * * mon-fri', '2024-01-01Z', 'America/Chicago', '2024-01-01 15:30Z', '2023-12-29 15:30Z'),
    ('quartz: 0 30 9 ? * MON-FRI', '2024-01-01Z', 'America/Chicago', '2024-01-01 15:30Z', '2023-12-29 15:30Z'),
    ('quartz: 0 0 12 ? * 6#3', '2024-01-01Z', 'UTC', '2024-01-19 12:00Z', '2023-12-15 12:00Z'),
    ('quartz: 0 0 12 L-3 * ?', '2024-02-01Z', 'UTC', '2024-02-26 12:00Z', '2024-01-28 12:00Z'),
    ('0 0 13 * 5', '2024-01-01Z', 'UTC', '2024-01-05 00:00Z', '2023-12-29 00:00Z'), -- the 13th, or a Friday
    ('0 0 0 13 * Fri', '2024-01-01Z', 'UTC', '2024-09-13 00:00Z', '2023-10-13 00:00Z'),
    ('0 0 29 2 *', '2023-06-01Z', 'UTC', '2024-02-29 00:00Z', '2020-02-29 00:00Z'),
    ('0 0 0 29 2 * 2000/100', '2024-01-01Z', 'UTC', null, '2000-02-29Z'),
    ('0 0 0 30 2 *', '2024-01-01Z', 'UTC', null, null),
    ('0 22-2 * * *', '2024-01-01Z', 'UTC', null, null),
    ('@reboot', '2024-01-01Z', 'UTC', null, null),
    -- a fire at the very instant is neither after nor before it, and a part of a second counts
    ('* * * * * *', '2024-01-01 00:00:10Z', 'UTC', '2024-01-01 00:00:11Z', '2024-01-01 00:00:09Z'),
    ('* * * * * *', '2024-01-01 00:00:10.000001Z', 'UTC', '2024-01-01 00:00:11Z', '2024-01-01 00:00:10Z'),
    ('* * * * * *', '2024-01-01 00:00:10.999999Z', 'UTC', '2024-01-01 00:00:11Z', '2024-01-01 00:00:10Z'),
    ('* * * * * *', '1969-12-31 23:59:59.5Z', 'UTC', '1970-01-01Z', null),
    -- from end to end of what the server counts; nothing fires outside the years 1970 to 2100
    ('@yearly', '-infinity', 'UTC', '1970-01-01Z', null),
    ('@yearly', 'infinity', 'UTC', null, '2100-01-01Z'),
    ('@yearly', '4713-01-01Z BC', 'UTC', '1970-01-01Z', null),
    ('@yearly', '294276-12-31 23:59:59.999999Z', 'UTC', null, '2100-01-01Z'),
    ('@yearly', '2100-01-01Z', 'UTC', null, '2099-01-01Z'),
    ('59 59 23 31 12 *', '2100-06-01Z', 'Pacific/Pago_Pago', '2101-01-01 10:59:59Z', '2100-01-01 10:59:59Z'),
    -- zones: a name in any case, a rule, abbreviations, half an hour, what changed long ago
    ('0 9 * * *', '2024-07-01Z', 'america/CHICAGO', '2024-07-01 14:00Z', '2024-06-30 14:00Z'),
    ('0 9 * * *', '2024-07-01Z', 'CST6CDT,M3.2.0,M11.1.0', '2024-07-01 14:00Z', '2024-06-30 14:00Z'),
    ('0 9 * * *', '2024-07-01Z', '<+03>-03', '2024-07-01 06:00Z', '2024-06-30 06:00Z'),
    ('0 9 * * *', '2024-07-01Z', 'EST', '2024-07-01 14:00Z', '2024-06-30 14:00Z'),
    ('0 9 * * *', '2024-07-01Z', 'EDT', '2024-07-01 13:00Z', '2024-06-30 13:00Z'),
    ('0 9 * * *', '2024-07-01Z', 'Asia/Kolkata', '2024-07-01 03:30Z', '2024-06-30 03:30Z'),
    ('0 9 * * *', '1970-07-01Z', 'Europe/London', '1970-07-01 08:00Z', '1970-06-30 08:00Z'),
    ('0 9 * * *', '2011-12-30Z', 'Pacific/Apia', '2011-12-30 10:00Z', '2011-12-29 19:00Z'); -- which passes over a whole day then
select expression, at, zone, next(expression, at, zone), after from wanted where next(expression, at, zone) is distinct from after;
select expression, at, zone, previous(expression, at, zone), before from wanted
    where previous(expression, at, zone) is distinct from before;
select expression, at, zone from wanted where not matches(expression, after, zone) or not matches(expression, before, zone)
    or matches(expression, after + interval '0.000001 s', zone) or matches(expression, 'infinity', zone)
    or matches(expression, '-infinity', zone);
-- Without a zone it is that of the session.
select count(*) from wanted where zone = 'UTC'
    and (next(expression, at) is distinct from after or previous(expression, at) is distinct from before);
set timezone = '<+03>-03';
select next('0 9 * * *', '2024-07-01Z') = '2024-07-01 06:00Z' as "a rule of the session",
       matches('0 9 * * *', '2024-07-01 06:00Z') and not matches('0 9 * * *', '2024-07-01 09:00Z') as matches;
set timezone = 'EST5EDT';
select next('0 9 * * *', '2024-07-01Z') = '2024-07-01 13:00Z' as "another rule";
set timezone = 'Asia/Kolkata';
select array_agg(f) = array['2024-07-01 03:30Z', '2024-07-02 03:30Z']::timestamptz[] as fires
    from fires('0 9 * * *', '2024-07-01Z', '2024-07-02 12:00Z') f;
set timezone = 'UTC';
-- Lists: after one instant and up to and with another.
select fires('0 9 * * *', '2024-01-01 09:00Z', '2024-01-04 09:00Z', 'UTC');
select fires('0 9 * * *', '2024-01-04 09:00Z', '2024-01-01 09:00Z', 'UTC');
select fires('* * * * * *', '-infinity', 'infinity', 'UTC') limit 3;
select count(*), min(f), max(f) from fires('0 0 * * *', '2000-01-01Z', '2021-01-01Z', 'UTC') f; -- 21 years, 6 of them leap years
select count(*), min(f), max(f) from fires('@yearly', '-infinity', 'infinity', 'UTC') f;
select expression, f from (values ('0 9 * * *'::cron), ('0 17 * * *')) jobs(expression),
    fires(expression, '2024-01-01Z', '2024-01-02 10:00Z', 'UTC') f order by f;
-- Null to null, and no rows.
select next(null, '2024-01-01Z', 'UTC'), next('@daily', null, 'UTC'), next('@daily', '2024-01-01Z', null::text),
    previous('@daily', null), matches(null, null);
select count(*) from fires('@daily', null, '2024-01-02Z', 'UTC');
-- An index holds what a zone is named for, and a generated column too.
create table jobs (expression cron, zone text, last timestamptz, due timestamptz generated always as (next(expression, last, zone)) stored);
insert into jobs values ('0 9 * * *', 'America/Chicago', '2024-01-01Z');
create index on jobs (next(expression, last, zone));
update jobs set last = due;
select due from jobs;
create index on jobs (next(expression, last));
drop table wanted, jobs;
