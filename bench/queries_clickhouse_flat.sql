-- The thirteen queries for ClickHouse over the one wide table of flat_clickhouse.sql.
-- Q1.1
SELECT if(count() = 0, NULL, sum(lo_extendedprice * lo_discount)) AS total
FROM lineorder_flat
WHERE lo_discount BETWEEN 1 AND 3 AND lo_quantity < 25
  AND d_year = 1993;
-- Q1.2
SELECT if(count() = 0, NULL, sum(lo_extendedprice * lo_discount)) AS total
FROM lineorder_flat
WHERE lo_discount BETWEEN 4 AND 6 AND lo_quantity BETWEEN 26 AND 35
  AND d_yearmonthnum = 199401;
-- Q1.3
SELECT if(count() = 0, NULL, sum(lo_extendedprice * lo_discount)) AS total
FROM lineorder_flat
WHERE lo_discount BETWEEN 5 AND 7 AND lo_quantity BETWEEN 26 AND 35
  AND d_weeknuminyear = 6 AND d_year = 1994;
-- Q2.1
SELECT sum(lo_revenue) AS total, d_year, p_brand1
FROM lineorder_flat
WHERE p_category = 'MFGR#12'
  AND s_region = 'AMERICA'
GROUP BY d_year, p_brand1
ORDER BY d_year, p_brand1;
-- Q2.2
SELECT sum(lo_revenue) AS total, d_year, p_brand1
FROM lineorder_flat
WHERE p_brand1 BETWEEN 'MFGR#2221' AND 'MFGR#2228'
  AND s_region = 'ASIA'
GROUP BY d_year, p_brand1
ORDER BY d_year, p_brand1;
-- Q2.3
SELECT sum(lo_revenue) AS total, d_year, p_brand1
FROM lineorder_flat
WHERE p_brand1 = 'MFGR#2239'
  AND s_region = 'EUROPE'
GROUP BY d_year, p_brand1
ORDER BY d_year, p_brand1;
-- Q3.1
SELECT c_nation, s_nation, d_year, sum(lo_revenue) AS total
FROM lineorder_flat
WHERE s_region = 'ASIA'
  AND c_region = 'ASIA'
  AND d_year BETWEEN 1992 AND 1997
GROUP BY c_nation, s_nation, d_year
ORDER BY d_year, total DESC, c_nation, s_nation;
-- Q3.2
SELECT c_city, s_city, d_year, sum(lo_revenue) AS total
FROM lineorder_flat
WHERE s_nation = 'UNITED STATES'
  AND c_nation = 'UNITED STATES'
  AND d_year BETWEEN 1992 AND 1997
GROUP BY c_city, s_city, d_year
ORDER BY d_year, total DESC, c_city, s_city;
-- Q3.3
SELECT c_city, s_city, d_year, sum(lo_revenue) AS total
FROM lineorder_flat
WHERE s_city IN ('UNITED KI1', 'UNITED KI5')
  AND c_city IN ('UNITED KI1', 'UNITED KI5')
  AND d_year BETWEEN 1992 AND 1997
GROUP BY c_city, s_city, d_year
ORDER BY d_year, total DESC, c_city, s_city;
-- Q3.4
SELECT c_city, s_city, d_year, sum(lo_revenue) AS total
FROM lineorder_flat
WHERE s_city IN ('UNITED KI1', 'UNITED KI5')
  AND c_city IN ('UNITED KI1', 'UNITED KI5')
  AND d_yearmonth = 'Dec1997'
GROUP BY c_city, s_city, d_year
ORDER BY d_year, total DESC, c_city, s_city;
-- Q4.1
SELECT d_year, c_nation, sum(toInt64(lo_revenue) - toInt64(lo_supplycost)) AS total
FROM lineorder_flat
WHERE s_region = 'AMERICA'
  AND c_region = 'AMERICA'
  AND p_mfgr IN ('MFGR#1', 'MFGR#2')
GROUP BY d_year, c_nation
ORDER BY d_year, c_nation;
-- Q4.2
SELECT d_year, s_nation, p_category, sum(toInt64(lo_revenue) - toInt64(lo_supplycost)) AS total
FROM lineorder_flat
WHERE s_region = 'AMERICA'
  AND c_region = 'AMERICA'
  AND p_mfgr IN ('MFGR#1', 'MFGR#2')
  AND d_year IN (1997, 1998)
GROUP BY d_year, s_nation, p_category
ORDER BY d_year, s_nation, p_category;
-- Q4.3
SELECT d_year, s_city, p_brand1, sum(toInt64(lo_revenue) - toInt64(lo_supplycost)) AS total
FROM lineorder_flat
WHERE s_nation = 'UNITED STATES'
  AND p_category = 'MFGR#14'
  AND c_region = 'AMERICA'
  AND d_year IN (1997, 1998)
GROUP BY d_year, s_city, p_brand1
ORDER BY d_year, s_city, p_brand1;
