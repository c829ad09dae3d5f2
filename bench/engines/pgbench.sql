-- What pgbench did, in the order of the commits, for bench/pgbench: a row for each transaction with the sums behind it.
--
-- Accounts that no transaction named are left out; the others have numbers from 0 on, as tellers and branches have. Of an account, a teller, a branch
-- and all accounts together, there is the sum of what came in up to this transaction, itself included, and the sum of what went out.
CREATE TABLE used_accounts AS
SELECT aid, row_number() OVER (ORDER BY aid) - 1 AS account FROM (SELECT DISTINCT aid FROM pgbench_history) AS named;

CREATE TABLE transactions AS
SELECT row_number() OVER (ORDER BY pg_xact_commit_timestamp(done.xmin), done.xmin::text::bigint) AS number,
    account, tid - 1 AS teller, bid - 1 AS branch, delta, greatest(delta, 0) AS come, greatest(-delta, 0) AS gone
FROM pgbench_history AS done JOIN used_accounts USING (aid);

CREATE VIEW history AS
SELECT number, account, teller, branch, delta,
    sum(come) OVER of_account AS account_in, sum(gone) OVER of_account AS account_out,
    sum(come) OVER of_teller AS teller_in, sum(gone) OVER of_teller AS teller_out,
    sum(come) OVER of_branch AS branch_in, sum(gone) OVER of_branch AS branch_out,
    sum(come) OVER of_all AS all_in, sum(gone) OVER of_all AS all_out
FROM transactions
WINDOW of_account AS (PARTITION BY account ORDER BY number), of_teller AS (PARTITION BY teller ORDER BY number),
    of_branch AS (PARTITION BY branch ORDER BY number), of_all AS (ORDER BY number);

-- the balances as pgbench left them
CREATE VIEW balances AS
SELECT 0 AS kind, account AS id, abalance AS balance FROM pgbench_accounts JOIN used_accounts USING (aid)
UNION ALL SELECT 1, tid - 1, tbalance FROM pgbench_tellers
UNION ALL SELECT 2, bid - 1, bbalance FROM pgbench_branches;
