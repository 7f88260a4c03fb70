-- The Star Schema Benchmark's tables for SQLite.
CREATE TABLE customer (
    c_custkey INTEGER PRIMARY KEY, c_name TEXT, c_address TEXT, c_city TEXT,
    c_nation TEXT, c_region TEXT, c_phone TEXT, c_mktsegment TEXT);
CREATE TABLE supplier (
    s_suppkey INTEGER PRIMARY KEY, s_name TEXT, s_address TEXT, s_city TEXT,
    s_nation TEXT, s_region TEXT, s_phone TEXT);
CREATE TABLE part (
    p_partkey INTEGER PRIMARY KEY, p_name TEXT, p_mfgr TEXT, p_category TEXT,
    p_brand1 TEXT, p_color TEXT, p_type TEXT, p_size TEXT, p_container TEXT);
CREATE TABLE dwdate (
    d_datekey INTEGER PRIMARY KEY, d_date TEXT, d_dayofweek TEXT, d_month TEXT,
    d_year INTEGER, d_yearmonthnum INTEGER, d_yearmonth TEXT, d_daynuminweek TEXT, d_daynuminmonth TEXT,
    d_daynuminyear TEXT, d_monthnuminyear TEXT, d_weeknuminyear INTEGER, d_sellingseason TEXT,
    d_lastdayinweekfl TEXT, d_lastdayinmonthfl TEXT, d_holidayfl TEXT, d_weekdayfl TEXT);
CREATE TABLE lineorder (
    lo_orderkey INTEGER, lo_linenumber INTEGER, lo_custkey INTEGER, lo_partkey INTEGER, lo_suppkey INTEGER,
    lo_orderdate INTEGER, lo_orderpriority TEXT, lo_shippriority TEXT, lo_quantity INTEGER,
    lo_extendedprice INTEGER, lo_ordtotalprice INTEGER, lo_discount INTEGER, lo_revenue INTEGER,
    lo_supplycost INTEGER, lo_tax INTEGER, lo_commitdate INTEGER, lo_shipmode TEXT,
    PRIMARY KEY (lo_orderkey, lo_linenumber));
