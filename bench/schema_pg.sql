-- The Star Schema Benchmark's tables for PostgreSQL: plain tables; keys_pg.sql adds the primary keys after loading.
CREATE TABLE customer (
    c_custkey integer NOT NULL, c_name text NOT NULL, c_address text NOT NULL, c_city text NOT NULL,
    c_nation text NOT NULL, c_region text NOT NULL, c_phone text NOT NULL, c_mktsegment text NOT NULL);
CREATE TABLE supplier (
    s_suppkey integer NOT NULL, s_name text NOT NULL, s_address text NOT NULL, s_city text NOT NULL,
    s_nation text NOT NULL, s_region text NOT NULL, s_phone text NOT NULL);
CREATE TABLE part (
    p_partkey integer NOT NULL, p_name text NOT NULL, p_mfgr text NOT NULL, p_category text NOT NULL,
    p_brand1 text NOT NULL, p_color text NOT NULL, p_type text NOT NULL, p_size text NOT NULL,
    p_container text NOT NULL);
CREATE TABLE dwdate (
    d_datekey integer NOT NULL, d_date text NOT NULL, d_dayofweek text NOT NULL, d_month text NOT NULL,
    d_year integer NOT NULL, d_yearmonthnum integer NOT NULL, d_yearmonth text NOT NULL,
    d_daynuminweek text NOT NULL, d_daynuminmonth text NOT NULL, d_daynuminyear text NOT NULL,
    d_monthnuminyear text NOT NULL, d_weeknuminyear integer NOT NULL, d_sellingseason text NOT NULL,
    d_lastdayinweekfl text NOT NULL, d_lastdayinmonthfl text NOT NULL, d_holidayfl text NOT NULL,
    d_weekdayfl text NOT NULL);
CREATE TABLE lineorder (
    lo_orderkey bigint NOT NULL, lo_linenumber smallint NOT NULL, lo_custkey integer NOT NULL,
    lo_partkey integer NOT NULL, lo_suppkey integer NOT NULL, lo_orderdate integer NOT NULL,
    lo_orderpriority text NOT NULL, lo_shippriority text NOT NULL, lo_quantity smallint NOT NULL,
    lo_extendedprice bigint NOT NULL, lo_ordtotalprice bigint NOT NULL, lo_discount smallint NOT NULL,
    lo_revenue bigint NOT NULL, lo_supplycost bigint NOT NULL, lo_tax smallint NOT NULL,
    lo_commitdate integer NOT NULL, lo_shipmode text NOT NULL);
