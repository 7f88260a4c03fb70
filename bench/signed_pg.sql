-- The table of signed lines, as `ssb_live changes` writes them, for PostgreSQL.
CREATE TABLE signed_lines (
    commit_number bigint NOT NULL, sign smallint NOT NULL,
    lo_orderkey bigint NOT NULL, lo_linenumber smallint NOT NULL, lo_custkey integer NOT NULL,
    lo_partkey integer NOT NULL, lo_suppkey integer NOT NULL, lo_orderdate integer NOT NULL,
    lo_orderpriority text NOT NULL, lo_shippriority text NOT NULL, lo_quantity smallint NOT NULL,
    lo_extendedprice bigint NOT NULL, lo_ordtotalprice bigint NOT NULL, lo_discount smallint NOT NULL,
    lo_revenue bigint NOT NULL, lo_supplycost bigint NOT NULL, lo_tax smallint NOT NULL,
    lo_commitdate integer NOT NULL, lo_shipmode text NOT NULL);
