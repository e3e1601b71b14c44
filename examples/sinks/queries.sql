-- the tags of each reader and hour of the last day: how often one was seen, and how many different ones there were
select reader, date_trunc('hour', at) as hour, count(*) as seen, count(distinct epc) as tags
from tags where at >= now() - interval '1 day' group by 1, 2 order by 1, 2;

-- each tag of today at a reader: first and last seen, and how often
select epc, reader, min(at) as first, max(at) as last, sum(coalesce(count, 1)) as times
from tags where at >= date_trunc('day', now()) group by 1, 2 order by 3;

-- gaps of the last day: when a reader had no tag for five minutes or longer
select reader, before as since, at as until, at - before as long
from (select reader, at, lag(at) over (partition by reader order by at) as before from tags where at >= now() - interval '1 day') as pairs
where at - before >= interval '5 minutes' order by 1, 2;

-- what came and was no line of a tag
select * from tags_odd order by came desc limit 20;
