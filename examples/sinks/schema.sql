-- Tags of readers, each line once, however often it is delivered. Run once by the table's owner:  psql -d tags -f schema.sql
create table tags (
    at         timestamptz not null,            -- when the host had read the report
    reader     text        not null,            -- the name of the service: dock1
    epc        text        not null,
    antenna    integer,
    rssi       integer,
    first_seen timestamptz,                     -- by the reader's clock
    last_seen  timestamptz,
    count      integer,                         -- how often the reader saw it meanwhile
    line       jsonb       not null,            -- all that watch says of it
    key        uuid        not null,            -- of the line as it stands: a line that comes twice is one row
    primary key (at, key)
) partition by range (at);
create table tags_default partition of tags default;
create index on tags (epc, at);

-- What is no line of a tag, as half a line after a power cut: kept, and in nobody's way.
create table tags_odd (came timestamptz not null default now(), line text not null);

-- The row of a line.
create function tag_of(said text) returns setof tags language sql stable as $$
    select (j->>'at')::timestamptz, coalesce(j->>'reader', ''), j->>'epc', (j->>'antenna')::int, (j->>'rssi')::int,
           to_timestamp((j->>'FirstSeenTimestampUTC')::numeric / 1000000), to_timestamp((j->>'LastSeenTimestampUTC')::numeric / 1000000),
           (j->>'TagSeenCount')::int, j, md5(said)::uuid
    from (select said::jsonb as j) as it
$$;

-- Takes the lines of the table `said`, all at once; line by line only where one of them is odd, so that it does not hold up the others for ever. All
-- else that may be wrong (no table, no right, no room) is an error, and the lines come again.
create function take_tags() returns void language plpgsql as $$
declare it text;
begin
    insert into tags select its.* from said cross join tag_of(said.line) as its on conflict do nothing;
exception when data_exception or integrity_constraint_violation then
    for it in select line from said loop
        begin
            insert into tags select its.* from tag_of(it) as its on conflict do nothing;
        exception when data_exception or integrity_constraint_violation then
            insert into tags_odd (line) values (it);
        end;
    end loop;
end $$;
