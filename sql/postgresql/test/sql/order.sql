-- Equal are the sets and the rule: of each pair both texts mean the same, or not.
create table pairs (one cron, other cron, are_equal boolean);
insert into pairs values
    ('*/5 * * * *', '0,5,10,15,20,25,30,35,40,45,50,55 * * * *', true),
    ('0 9 * * 1', '  00  9 * *  mon ', true),
    ('0 0 * * 0', '0 0 * * 7', true),
    ('*/5 * * * *', '0 */5 * * * *', true),           -- both follow the clock
    ('@hourly', '0 * * * *', true),
    ('0 0 0 ? * 2', 'quartz: 0 0 0 ? * MON', true),
    ('0 0 13 * 5', '0 0 13 * fri', true),             -- two schedules
    ('0 0 1-31 * 0-6', '0 0 1,2-31 * 0,1-6', true),   -- two equal ones
    ('0 30 9 * * *', '30 9 * * *', false),            -- a crontab's fixed time fires once
    ('*/30 9 * * *', '0,30 9 * * *', false),          -- so does the second
    ('0 0 9 * * *', '0 0 9 * * * 2024', false),
    ('0 0 9 L * *', '0 0 9 31 * *', false),
    ('1 0 9 * * *', '0 0 9 * * *', false),
    ('@reboot', '0 0 9 * * *', false);
select one, other from pairs
    where (one = other) <> are_equal or (one <> other) = are_equal
       or (cron_hash(one) = cron_hash(other)) <> are_equal
       or (cron_hash_extended(one, 7) = cron_hash_extended(other, 7)) <> are_equal
       or (cron_cmp(one, other) = 0) <> are_equal
       or sign(cron_cmp(one, other)) <> -sign(cron_cmp(other, one));
-- The order is total: by the first ordinal that one alone has, hours before minutes and seconds.
create table jobs (id serial, expression cron);
insert into jobs (expression) values
    ('30 9 * * *'), ('15 9 * * *'), ('0 17 * * *'), ('0 9,17 * * *'), ('* * * * *'), ('@reboot'), ('0 15 9 * * *');
select expression from jobs order by expression, id;
select count(*) from jobs a cross join jobs b where ((a.expression < b.expression)::int + (a.expression = b.expression)::int
    + (a.expression > b.expression)::int) <> 1 or (a.expression <= b.expression) <> not (a.expression > b.expression)
    or (a.expression >= b.expression) <> not (a.expression < b.expression);
-- `distinct`, a join and an index take it.
insert into jobs (expression) select ((m % 60) || ' ' || (m / 60) || ' * * *')::cron from generate_series(0, 1439) m;
select count(*), count(distinct expression) from jobs; -- 15 and 30 minutes past 9 and 0 past 17 come twice
create index by_order on jobs (expression);
create index by_hash on jobs using hash (expression);
analyze jobs;
set enable_seqscan = off;
set enable_bitmapscan = off;
explain (costs off) select id from jobs where expression < '* * * * *';
select id from jobs where expression = ' 15  9 * * *' order by id;
drop index by_order;
explain (costs off) select id from jobs where expression = '0 17 * * *';
select count(*) from jobs where expression = '00 17 * * *';
reset enable_seqscan;
reset enable_bitmapscan;
set enable_mergejoin = off;
set enable_nestloop = off;
select count(*) from jobs a join jobs b using (expression); -- 1441, and three times 2 by 2
set enable_hashjoin = off;
set enable_mergejoin = on;
select count(*) from jobs a join jobs b using (expression);
select count(*) from (select expression from jobs group by expression having count(*) > 1) twice;
create table once_each (expression cron primary key);
insert into once_each values ('0 9 * * *');
insert into once_each values ('00 09 * * *') on conflict do nothing;
select expression from once_each;
drop table pairs, jobs, once_each;
