.mode list
.headers on
select cron_next('30 9 * * mon-fri', '2024-01-01T00:00:00Z', 'America/Chicago') as next;
select cron_previous('quartz: 0 0 12 L-3 * ?', '2024-02-01 00:00', 'UTC') as previous;
select cron_is_valid('0 24 * * *') as valid, cron_fault('0 24 * * *') as fault;
select fire from cron_fires('*/30 1 * * *', '2022-11-06T00:00:00-05:00', '2022-11-07T00:00:00-06:00', 'America/Chicago');
select fire from cron_fires('*/30 1 * * *', 1667710800, 1667800800, 'America/Chicago', 'once');
select fire from cron_fires('* * * * * *', 0) limit 2;
create table jobs (name, expression, zone);
insert into jobs values ('report', '0 9 * * *', 'America/Chicago'), ('backup', '0 17 * * *', 'UTC'), ('none', null, 'UTC');
select name, cron_next(expression, '2024-01-01', zone) as next from jobs order by next;
select cron_next('0 9 * *', 0, 'UTC');
select cron_next('0 9 * * *', 0, 'Mars/Olympus');
select cron_next('0 9 * * *', 'soon', 'UTC');
