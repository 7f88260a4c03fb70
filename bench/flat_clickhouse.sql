-- The wide table that ClickHouse's own guide to this benchmark uses, made from the five tables.
-- LowCardinality is experimental in release 18.16.
CREATE TABLE lineorder_flat (
    lo_orderkey UInt64, lo_linenumber UInt8, lo_orderdate UInt32, lo_quantity UInt8, lo_discount UInt8,
    lo_extendedprice UInt32, lo_revenue UInt32, lo_supplycost UInt32,
    d_datekey UInt32, d_dayofweek LowCardinality(String), d_month LowCardinality(String),
    d_year UInt32, d_yearmonthnum UInt32, d_yearmonth LowCardinality(String), d_weeknuminyear UInt32,
    d_sellingseason LowCardinality(String), d_holidayfl LowCardinality(String),
    c_city LowCardinality(String), c_nation LowCardinality(String), c_region LowCardinality(String),
    c_mktsegment LowCardinality(String),
    s_city LowCardinality(String), s_nation LowCardinality(String), s_region LowCardinality(String),
    p_mfgr LowCardinality(String), p_category LowCardinality(String), p_brand1 LowCardinality(String))
    ENGINE = MergeTree ORDER BY (d_year, lo_orderdate, lo_orderkey, lo_linenumber);
INSERT INTO lineorder_flat
SELECT lo_orderkey, lo_linenumber, lo_orderdate, lo_quantity, lo_discount, lo_extendedprice, lo_revenue, lo_supplycost,
       lo_orderdate, d_dayofweek, d_month, d_year, d_yearmonthnum, d_yearmonth, d_weeknuminyear, d_sellingseason,
       d_holidayfl, c_city, c_nation, c_region, c_mktsegment, s_city, s_nation, s_region, p_mfgr, p_category, p_brand1
FROM (SELECT lo_orderkey, lo_linenumber, lo_partkey, lo_orderdate, lo_quantity, lo_discount, lo_extendedprice,
             lo_revenue, lo_supplycost, c_city, c_nation, c_region, c_mktsegment, s_city, s_nation, s_region, p_mfgr,
             p_category, p_brand1
FROM (SELECT lo_orderkey, lo_linenumber, lo_partkey, lo_orderdate, lo_quantity, lo_discount, lo_extendedprice,
             lo_revenue, lo_supplycost, c_city, c_nation, c_region, c_mktsegment, s_city, s_nation, s_region
FROM (SELECT lo_orderkey, lo_linenumber, lo_partkey, lo_suppkey, lo_orderdate, lo_quantity, lo_discount,
             lo_extendedprice, lo_revenue, lo_supplycost, c_city, c_nation, c_region, c_mktsegment
FROM lineorder
ANY INNER JOIN (SELECT c_custkey AS lo_custkey, c_city, c_nation, c_region, c_mktsegment FROM customer) USING lo_custkey)
ANY INNER JOIN (SELECT s_suppkey AS lo_suppkey, s_city, s_nation, s_region FROM supplier) USING lo_suppkey)
ANY INNER JOIN (SELECT p_partkey AS lo_partkey, p_mfgr, p_category, p_brand1 FROM part) USING lo_partkey)
ANY INNER JOIN (SELECT d_datekey AS lo_orderdate, d_dayofweek, d_month, d_year, d_yearmonthnum, d_yearmonth, d_weeknuminyear,
    d_sellingseason, d_holidayfl FROM dwdate) USING lo_orderdate;
