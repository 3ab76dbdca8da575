-- Each wrong text is refused with its exact fault, and each wrong zone and rule.
select '0 24 * * *'::cron;
select '0 0 9 * * 0'::cron;
select '0 0 9 * * 2#1'::cron;
select 'quartz: 0 0 12 * * *'::cron;
select 'quartz:'::cron;
select ''::cron;
select '@dayly'::cron;
select E'0 9 * * *\n0 10 * * *'::cron;
select 'ü 9 * * *'::cron;
create table words (expression text);
insert into words values ('0 9 * * *'), ('0 9 * *');
select expression::cron from words;
select next('@daily', '2024-01-01Z', 'Mars/Olympus');
select next('@daily', '2024-01-01Z', '');
select previous('@daily', '2024-01-01Z', '../../etc/passwd');
select matches('@daily', '2024-01-01Z', repeat('x', 1000));
select fires('@daily', '2024-01-01Z', '2024-02-01Z', 'Mars/Olympus');
select next('@daily', '2024-01-01Z', 'UTC', 'twice');
select next('@daily', '2024-01-01Z', rule => 'twice');
select next('@daily', '2024-01-01Z', 'AAA167');
select next(expression, '2024-01-01Z', 'UTC') from words;
-- and the session goes on
select next('@daily', '2024-01-01Z', 'UTC') = '2024-01-02Z' as "goes on";
drop table words;
