-- The Star Schema Benchmark's tables for ClickHouse, each ordered by its primary key.
CREATE TABLE customer (
    c_custkey UInt32, c_name String, c_address String, c_city String,
    c_nation String, c_region String, c_phone String, c_mktsegment String)
    ENGINE = MergeTree ORDER BY c_custkey;
CREATE TABLE supplier (
    s_suppkey UInt32, s_name String, s_address String, s_city String,
    s_nation String, s_region String, s_phone String)
    ENGINE = MergeTree ORDER BY s_suppkey;
CREATE TABLE part (
    p_partkey UInt32, p_name String, p_mfgr String, p_category String,
    p_brand1 String, p_color String, p_type String, p_size String, p_container String)
    ENGINE = MergeTree ORDER BY p_partkey;
CREATE TABLE dwdate (
    d_datekey UInt32, d_date String, d_dayofweek String, d_month String,
    d_year UInt32, d_yearmonthnum UInt32, d_yearmonth String, d_daynuminweek String, d_daynuminmonth String,
    d_daynuminyear String, d_monthnuminyear String, d_weeknuminyear UInt32, d_sellingseason String,
    d_lastdayinweekfl String, d_lastdayinmonthfl String, d_holidayfl String, d_weekdayfl String)
    ENGINE = MergeTree ORDER BY d_datekey;
CREATE TABLE lineorder (
    lo_orderkey UInt64, lo_linenumber UInt8, lo_custkey UInt32, lo_partkey UInt32, lo_suppkey UInt32,
    lo_orderdate UInt32, lo_orderpriority String, lo_shippriority String, lo_quantity UInt8,
    lo_extendedprice UInt32, lo_ordtotalprice UInt32, lo_discount UInt8, lo_revenue UInt32,
    lo_supplycost UInt32, lo_tax UInt8, lo_commitdate UInt32, lo_shipmode String)
    ENGINE = MergeTree ORDER BY (lo_orderkey, lo_linenumber);
