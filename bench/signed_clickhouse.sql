-- The table of signed lines, as `ssb_live changes` writes them, for ClickHouse.
CREATE TABLE signed_lines (
    commit_number UInt64, sign Int8,
    lo_orderkey UInt64, lo_linenumber UInt8, lo_custkey UInt32, lo_partkey UInt32, lo_suppkey UInt32,
    lo_orderdate UInt32, lo_orderpriority String, lo_shippriority String, lo_quantity UInt8,
    lo_extendedprice UInt32, lo_ordtotalprice UInt32, lo_discount UInt8, lo_revenue UInt32,
    lo_supplycost UInt32, lo_tax UInt8, lo_commitdate UInt32, lo_shipmode String)
    ENGINE = MergeTree ORDER BY (commit_number, lo_orderkey, lo_linenumber);
