set timezone = 'America/Chicago'
create table alone as select e::cron as expression from unnest(array['30 9 * * mon-fri', '*/5 * * * *', '@daily', '@reboot', 'quartz: 0 0 12 L-3 * ?', '0 0 12 1,15,L 1 ? 2030/2']) e
select count(distinct expression), min(cron_hash(expression)), min(expression::text), max(cron_send(expression)) from alone
select a.expression, b.expression from alone a join alone b on a.expression <= b.expression order by a.expression
select next(expression, '2024-01-01Z', 'America/Chicago'), previous(expression, '2024-01-01Z'), matches(expression, '2024-01-01Z', 'UTC', 'once') from alone
select expression, count(f) from alone, fires(expression, '2022-01-01Z', '2022-12-31Z', 'America/Chicago') f group by expression
select expression, count(f) from alone, fires(expression, '2022-01-01Z', '2022-12-31Z', rule => 'once') f group by expression
select '0 24 * * *'::cron
select next('@daily', now(), 'Mars/Olympus')
drop table alone
