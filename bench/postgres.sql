-- A desk's deliveries in PostgreSQL: a request is one transaction, which locks the row of its field until it is kept.
drop table if exists field, move, kept cascade;
create table field (
    branch text, article text, lo bigint, hi bigint, value bigint, inf bigint, sup bigint,
    primary key (branch, article)
);
create table move (place bigserial primary key, branch text, article text, qty bigint);
create table kept (reqkey text primary key, place bigint, words text);
insert into field
    select 'N' || (n % 10), 'A-' || (n / 10), 0, 1000000000, 1000000, 1000000, 1000000 from generate_series(0, 9999) n;
create or replace function deliver(k text, b text, a text, q bigint) returns bigint language plpgsql as $$
declare
    p bigint;
    most bigint;
    now_at bigint;
begin
    select place into p from kept where reqkey = k;
    if found then
        return p;
    end if;
    select hi, sup into most, now_at from field where branch = b and article = a for update;
    if not found or now_at + q > most then
        return 0;
    end if;
    update field set value = value + q, inf = inf + q, sup = sup + q where branch = b and article = a;
    insert into move (branch, article, qty) values (b, a, q) returning place into p;
    insert into kept values (k, p, 'deliver ' || b || ' ' || a || ' ' || q);
    return p;
end $$;
analyze field;
checkpoint;
