-- Texts of the type: what is put in is printed, and read back.
set datestyle = 'ISO, YMD';
set timezone = 'UTC';
create table texts (place serial, expression cron);
insert into texts (expression) values
    ('30 9 * * mon-fri'), (' */5  9-17 * * * '), ('@daily'), ('@reboot'), ('0 30 9 * * Mon-Fri'), ('0 0 12 1,15,L 1 ? 2030/2'),
    ('quartz: 0 0 12 L-3 * ?'), ('quartz:0 0 12 ? * 6#3');
select expression, '[' || expression::text || ']' as "as text" from texts order by place;
select count(*) as "read back" from texts where expression::text::cron::text = expression::text;
select encode(cron_send(expression), 'escape') as sent from texts where expression = '@reboot';
-- A text column is assigned as it is.
create table words (expression text);
insert into words values ('0 9 * * *');
insert into texts (expression) select expression from words;
select expression, next(expression, '2024-01-01 09:00Z', 'UTC') from texts where expression = '0 9 * * *';
-- Null means nothing.
select null::cron is null as "null";
-- What the functions promise.
select proname, pronargs, provolatile, proisstrict, proparallel, count(*)
    from pg_proc join pg_depend on objid = pg_proc.oid and deptype = 'e' and classid = 'pg_proc'::regclass
    join pg_extension e on refobjid = e.oid and extname = 'varpsilt'
    where proname in ('next', 'previous', 'matches', 'fires')
    group by proname, pronargs, provolatile, proisstrict, proparallel order by proname, pronargs, provolatile;
select provolatile from pg_proc where oid = 'timezone(text, timestamptz)'::regprocedure;
drop table texts, words;
