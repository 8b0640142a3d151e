\set branch random(0, :branches - 1)
\set article random(0, :articles - 1)
\if :ordered
    \set sent :sent + 1
    \set key 1000000000000 * (:client_id + 1) + :sent
\else
    \set key random(1, 9000000000000000)
\endif
select deliver('K-' || :key, 'N' || :branch, 'A-' || :article, 1);
