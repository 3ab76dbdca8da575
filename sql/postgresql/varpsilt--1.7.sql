-- The type `cron`, and the functions that tell when one fires.
\echo Use "create extension varpsilt" to load this file. \quit

create type cron;

create function cron_in(cstring) returns cron as 'MODULE_PATHNAME', 'varpsilt_in' language c immutable strict parallel safe;
create function cron_out(cron) returns cstring as 'MODULE_PATHNAME', 'varpsilt_out' language c immutable strict parallel safe;
create function cron_recv(internal) returns cron as 'MODULE_PATHNAME', 'varpsilt_recv' language c immutable strict parallel safe;
create function cron_send(cron) returns bytea as 'MODULE_PATHNAME', 'varpsilt_send' language c immutable strict parallel safe;

create type cron (input = cron_in, output = cron_out, receive = cron_recv, send = cron_send, storage = extended);
comment on type cron is 'a crontab''s five fields or nickname, six or seven fields with seconds, or quartz: and Quartz''s';

create cast (text as cron) with inout as assignment;

-- Values are equal where their sets and their rules at clock changes are. Texts may differ.
create function cron_eq(cron, cron) returns boolean as 'MODULE_PATHNAME', 'varpsilt_eq' language c immutable strict parallel safe;
create function cron_ne(cron, cron) returns boolean as 'MODULE_PATHNAME', 'varpsilt_ne' language c immutable strict parallel safe;
create function cron_lt(cron, cron) returns boolean as 'MODULE_PATHNAME', 'varpsilt_lt' language c immutable strict parallel safe;
create function cron_le(cron, cron) returns boolean as 'MODULE_PATHNAME', 'varpsilt_le' language c immutable strict parallel safe;
create function cron_gt(cron, cron) returns boolean as 'MODULE_PATHNAME', 'varpsilt_gt' language c immutable strict parallel safe;
create function cron_ge(cron, cron) returns boolean as 'MODULE_PATHNAME', 'varpsilt_ge' language c immutable strict parallel safe;
create function cron_cmp(cron, cron) returns integer as 'MODULE_PATHNAME', 'varpsilt_cmp' language c immutable strict parallel safe;
create function cron_hash(cron) returns integer as 'MODULE_PATHNAME', 'varpsilt_hash' language c immutable strict parallel safe;
create function cron_hash_extended(cron, bigint) returns bigint as 'MODULE_PATHNAME', 'varpsilt_hash_extended' language c immutable strict parallel safe;

create operator = (leftarg = cron, rightarg = cron, function = cron_eq, commutator = =, negator = <>,
    restrict = eqsel, join = eqjoinsel, hashes, merges);
create operator <> (leftarg = cron, rightarg = cron, function = cron_ne, commutator = <>, negator = =,
    restrict = neqsel, join = neqjoinsel);
create operator < (leftarg = cron, rightarg = cron, function = cron_lt, commutator = >, negator = >=,
    restrict = scalarltsel, join = scalarltjoinsel);
create operator <= (leftarg = cron, rightarg = cron, function = cron_le, commutator = >=, negator = >,
    restrict = scalarlesel, join = scalarlejoinsel);
create operator > (leftarg = cron, rightarg = cron, function = cron_gt, commutator = <, negator = <=,
    restrict = scalargtsel, join = scalargtjoinsel);
create operator >= (leftarg = cron, rightarg = cron, function = cron_ge, commutator = <=, negator = <,
    restrict = scalargesel, join = scalargejoinsel);

create operator class cron_ops default for type cron using btree as
    operator 1 <, operator 2 <=, operator 3 =, operator 4 >=, operator 5 >, function 1 cron_cmp(cron, cron);
create operator class cron_ops default for type cron using hash as
    operator 1 =, function 1 cron_hash(cron), function 2 cron_hash_extended(cron, bigint);

-- `as_shown` or `once`. It is a type of its own so that a rule can be named where a zone isn't.
create domain cron_rule as text;

-- With a zone each is immutable, as `timezone(text, timestamptz)` is. Without one it is that of the session.
create function next(expression cron, after timestamptz) returns timestamptz
    as 'MODULE_PATHNAME', 'varpsilt_next' language c stable strict parallel safe;
create function next(expression cron, after timestamptz, zone text) returns timestamptz
    as 'MODULE_PATHNAME', 'varpsilt_next' language c immutable strict parallel safe;
create function next(expression cron, after timestamptz, zone text, rule text) returns timestamptz
    as 'MODULE_PATHNAME', 'varpsilt_next' language c immutable strict parallel safe;
create function next(expression cron, after timestamptz, rule cron_rule) returns timestamptz
    as 'MODULE_PATHNAME', 'varpsilt_next_ruled' language c stable strict parallel safe;

create function previous(expression cron, before timestamptz) returns timestamptz
    as 'MODULE_PATHNAME', 'varpsilt_previous' language c stable strict parallel safe;
create function previous(expression cron, before timestamptz, zone text) returns timestamptz
    as 'MODULE_PATHNAME', 'varpsilt_previous' language c immutable strict parallel safe;
create function previous(expression cron, before timestamptz, zone text, rule text) returns timestamptz
    as 'MODULE_PATHNAME', 'varpsilt_previous' language c immutable strict parallel safe;
create function previous(expression cron, before timestamptz, rule cron_rule) returns timestamptz
    as 'MODULE_PATHNAME', 'varpsilt_previous_ruled' language c stable strict parallel safe;

create function matches(expression cron, at timestamptz) returns boolean
    as 'MODULE_PATHNAME', 'varpsilt_matches' language c stable strict parallel safe;
create function matches(expression cron, at timestamptz, zone text) returns boolean
    as 'MODULE_PATHNAME', 'varpsilt_matches' language c immutable strict parallel safe;
create function matches(expression cron, at timestamptz, zone text, rule text) returns boolean
    as 'MODULE_PATHNAME', 'varpsilt_matches' language c immutable strict parallel safe;
create function matches(expression cron, at timestamptz, rule cron_rule) returns boolean
    as 'MODULE_PATHNAME', 'varpsilt_matches_ruled' language c stable strict parallel safe;

create function fires(expression cron, "from" timestamptz, "to" timestamptz) returns setof timestamptz
    as 'MODULE_PATHNAME', 'varpsilt_fires' language c stable strict parallel safe;
create function fires(expression cron, "from" timestamptz, "to" timestamptz, zone text) returns setof timestamptz
    as 'MODULE_PATHNAME', 'varpsilt_fires' language c immutable strict parallel safe;
create function fires(expression cron, "from" timestamptz, "to" timestamptz, zone text, rule text) returns setof timestamptz
    as 'MODULE_PATHNAME', 'varpsilt_fires' language c immutable strict parallel safe;
create function fires(expression cron, "from" timestamptz, "to" timestamptz, rule cron_rule) returns setof timestamptz
    as 'MODULE_PATHNAME', 'varpsilt_fires_ruled' language c stable strict parallel safe;

comment on function next(cron, timestamptz) is 'when it fires first after an instant, in the session''s time zone';
comment on function next(cron, timestamptz, text) is 'when it fires first after an instant, in a time zone';
comment on function next(cron, timestamptz, text, text) is 'when it fires first after an instant, in a time zone, by the rule as_shown or once';
comment on function next(cron, timestamptz, cron_rule) is 'when it fires first after an instant, in the session''s time zone, by the rule as_shown or once';
comment on function previous(cron, timestamptz) is 'when it fired last before an instant, in the session''s time zone';
comment on function previous(cron, timestamptz, text) is 'when it fired last before an instant, in a time zone';
comment on function previous(cron, timestamptz, text, text) is 'when it fired last before an instant, in a time zone, by the rule as_shown or once';
comment on function previous(cron, timestamptz, cron_rule) is 'when it fired last before an instant, in the session''s time zone, by the rule as_shown or once';
comment on function matches(cron, timestamptz) is 'whether it fires at this very instant, in the session''s time zone';
comment on function matches(cron, timestamptz, text) is 'whether it fires at this very instant, in a time zone';
comment on function matches(cron, timestamptz, text, text) is 'whether it fires at this very instant, in a time zone, by the rule as_shown or once';
comment on function matches(cron, timestamptz, cron_rule) is 'whether it fires at this very instant, in the session''s time zone, by the rule as_shown or once';
comment on function fires(cron, timestamptz, timestamptz) is 'all fires after one instant and up to and with another, in the session''s time zone';
comment on function fires(cron, timestamptz, timestamptz, text) is 'all fires after one instant and up to and with another, in a time zone';
comment on function fires(cron, timestamptz, timestamptz, text, text) is 'all fires after one instant and up to and with another, in a time zone, by the rule as_shown or once';
comment on function fires(cron, timestamptz, timestamptz, cron_rule) is 'all fires after one instant and up to and with another, in the session''s time zone, by the rule as_shown or once';
