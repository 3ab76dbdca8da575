-- Where a clock changes: in Chicago it passes over 02:00 to 03:00 on 2022-03-13 at 08:00Z, and shows 01:00 to 02:00 twice on
-- 2022-11-06, from 06:00Z and from 07:00Z on. By its own rule a crontab's fixed time fires once.
set datestyle = 'ISO, YMD';
set timezone = 'America/Chicago';
create table wanted (expression cron, at timestamptz, rule text, after timestamptz, before timestamptz);
insert into wanted values
    ('30 2 * * *', '2022-03-13 07:59:59Z', 'own', '2022-03-13 08:00Z', '2022-03-12 08:30Z'),
    ('30 2 * * *', '2022-03-13 08:00Z', 'own', '2022-03-14 07:30Z', '2022-03-12 08:30Z'),
    ('30 2 * * *', '2022-03-13 08:00:01Z', 'own', '2022-03-14 07:30Z', '2022-03-13 08:00Z'),
    ('30 2 * * *', '2022-03-13 08:00Z', 'as_shown', '2022-03-14 07:30Z', '2022-03-12 08:30Z'),
    ('0 30 2 * * *', '2022-03-13 07:59Z', 'own', '2022-03-14 07:30Z', '2022-03-12 08:30Z'),
    ('0 30 2 * * *', '2022-03-13 07:59Z', 'once', '2022-03-13 08:00Z', '2022-03-12 08:30Z'),
    ('*/30 2 * * *', '2022-03-13 07:59Z', 'own', '2022-03-14 07:00Z', '2022-03-12 08:30Z'),
    ('30 1 * * *', '2022-11-06 06:00Z', 'own', '2022-11-06 06:30Z', '2022-11-05 06:30Z'),
    ('30 1 * * *', '2022-11-06 06:30Z', 'own', '2022-11-07 07:30Z', '2022-11-05 06:30Z'),
    ('30 1 * * *', '2022-11-06 12:00Z', 'own', '2022-11-07 07:30Z', '2022-11-06 06:30Z'),
    ('30 1 * * *', '2022-11-06 06:30Z', 'as_shown', '2022-11-06 07:30Z', '2022-11-05 06:30Z'),
    ('0 30 1 * * *', '2022-11-06 06:30Z', 'own', '2022-11-06 07:30Z', '2022-11-05 06:30Z'),
    ('0 30 1 * * *', '2022-11-06 12:00Z', 'own', '2022-11-07 07:30Z', '2022-11-06 07:30Z'),
    ('0 30 1 * * *', '2022-11-06 12:00Z', 'once', '2022-11-07 07:30Z', '2022-11-06 06:30Z'),
    ('30 * * * *', '2022-11-06 06:30Z', 'own', '2022-11-06 07:30Z', '2022-11-06 05:30Z'),
    ('quartz: 0 30 1 * * ?', '2022-11-06 06:30Z', 'own', '2022-11-06 07:30Z', '2022-11-05 06:30Z'),
    ('@hourly', '2022-11-06 06:30Z', 'own', '2022-11-06 07:00Z', '2022-11-06 06:00Z'),
    ('@hourly', '2022-11-06 06:30Z', 'once', '2022-11-06 08:00Z', '2022-11-06 06:00Z');
select expression, at, rule from wanted where rule = 'own' and (
    next(expression, at, 'America/Chicago') is distinct from after or previous(expression, at, 'America/Chicago') is distinct from before
    or next(expression, at) is distinct from after or previous(expression, at) is distinct from before
    or not matches(expression, after) or not matches(expression, before));
select expression, at, rule from wanted where rule <> 'own' and (
    next(expression, at, 'America/Chicago', rule) is distinct from after
    or previous(expression, at, 'America/Chicago', rule) is distinct from before
    or next(expression, at, rule => rule) is distinct from after or previous(expression, at, rule => rule) is distinct from before
    or not matches(expression, after, rule => rule) or not matches(expression, before, 'America/Chicago', rule));
-- By the rule `once` two matches that are passed over together are two fires at one instant.
select fires('*/30 2 * * *', '2022-03-13Z', '2022-03-14Z', rule => 'once');
select fires('*/30 2 * * *', '2022-03-13Z', '2022-03-14 12:00Z');
select fires('*/30 1 * * *', '2022-11-06Z', '2022-11-06 12:00Z', 'America/Chicago');
select fires('0,30 1 * * *', '2022-11-06Z', '2022-11-06 12:00Z', 'America/Chicago');
select fires('0,30 1 * * *', '2022-11-06Z', '2022-11-06 12:00Z', 'America/Chicago', 'as_shown');
drop table wanted;
