-- The thirteen queries for ClickHouse over the five tables. Its release 18.16 refuses two JOINs in one query, so
-- they are nested, each with its dimension filtered first; every tested dimension also stands as an IN test on the
-- lines, which that release needs to look at fewer lines.
-- Q1.1
SELECT if(count() = 0, NULL, sum(lo_extendedprice * lo_discount)) AS total
FROM lineorder
WHERE lo_discount BETWEEN 1 AND 3 AND lo_quantity < 25
  AND lo_orderdate IN (SELECT d_datekey FROM dwdate WHERE d_year = 1993);
-- Q1.2
SELECT if(count() = 0, NULL, sum(lo_extendedprice * lo_discount)) AS total
FROM lineorder
WHERE lo_discount BETWEEN 4 AND 6 AND lo_quantity BETWEEN 26 AND 35
  AND lo_orderdate IN (SELECT d_datekey FROM dwdate WHERE d_yearmonthnum = 199401);
-- Q1.3
SELECT if(count() = 0, NULL, sum(lo_extendedprice * lo_discount)) AS total
FROM lineorder
WHERE lo_discount BETWEEN 5 AND 7 AND lo_quantity BETWEEN 26 AND 35
  AND lo_orderdate IN (SELECT d_datekey FROM dwdate WHERE d_weeknuminyear = 6 AND d_year = 1994);
-- Q2.1
SELECT sum(lo_revenue) AS total, d_year, p_brand1
FROM (SELECT lo_revenue, lo_orderdate, p_brand1 FROM lineorder
ANY INNER JOIN (SELECT p_partkey AS lo_partkey, p_brand1 FROM part WHERE p_category = 'MFGR#12') USING lo_partkey
WHERE lo_partkey IN (SELECT p_partkey FROM part WHERE p_category = 'MFGR#12')
  AND lo_suppkey IN (SELECT s_suppkey FROM supplier WHERE s_region = 'AMERICA'))
ANY INNER JOIN (SELECT d_datekey AS lo_orderdate, d_year FROM dwdate) USING lo_orderdate
GROUP BY d_year, p_brand1
ORDER BY d_year, p_brand1;
-- Q2.2
SELECT sum(lo_revenue) AS total, d_year, p_brand1
FROM (SELECT lo_revenue, lo_orderdate, p_brand1 FROM lineorder
ANY INNER JOIN (SELECT p_partkey AS lo_partkey, p_brand1 FROM part WHERE p_brand1 BETWEEN 'MFGR#2221' AND 'MFGR#2228') USING lo_partkey
WHERE lo_partkey IN (SELECT p_partkey FROM part WHERE p_brand1 BETWEEN 'MFGR#2221' AND 'MFGR#2228')
  AND lo_suppkey IN (SELECT s_suppkey FROM supplier WHERE s_region = 'ASIA'))
ANY INNER JOIN (SELECT d_datekey AS lo_orderdate, d_year FROM dwdate) USING lo_orderdate
GROUP BY d_year, p_brand1
ORDER BY d_year, p_brand1;
-- Q2.3
SELECT sum(lo_revenue) AS total, d_year, p_brand1
FROM (SELECT lo_revenue, lo_orderdate, p_brand1 FROM lineorder
ANY INNER JOIN (SELECT p_partkey AS lo_partkey, p_brand1 FROM part WHERE p_brand1 = 'MFGR#2239') USING lo_partkey
WHERE lo_partkey IN (SELECT p_partkey FROM part WHERE p_brand1 = 'MFGR#2239')
  AND lo_suppkey IN (SELECT s_suppkey FROM supplier WHERE s_region = 'EUROPE'))
ANY INNER JOIN (SELECT d_datekey AS lo_orderdate, d_year FROM dwdate) USING lo_orderdate
GROUP BY d_year, p_brand1
ORDER BY d_year, p_brand1;
-- Q3.1
SELECT c_nation, s_nation, d_year, sum(lo_revenue) AS total
FROM (SELECT lo_revenue, lo_orderdate, s_nation, c_nation FROM (SELECT lo_revenue, lo_custkey, lo_orderdate, s_nation FROM lineorder
ANY INNER JOIN (SELECT s_suppkey AS lo_suppkey, s_nation FROM supplier WHERE s_region = 'ASIA') USING lo_suppkey
WHERE lo_suppkey IN (SELECT s_suppkey FROM supplier WHERE s_region = 'ASIA')
  AND lo_custkey IN (SELECT c_custkey FROM customer WHERE c_region = 'ASIA')
  AND lo_orderdate IN (SELECT d_datekey FROM dwdate WHERE d_year BETWEEN 1992 AND 1997))
ANY INNER JOIN (SELECT c_custkey AS lo_custkey, c_nation FROM customer WHERE c_region = 'ASIA') USING lo_custkey)
ANY INNER JOIN (SELECT d_datekey AS lo_orderdate, d_year FROM dwdate WHERE d_year BETWEEN 1992 AND 1997) USING lo_orderdate
GROUP BY c_nation, s_nation, d_year
ORDER BY d_year, total DESC, c_nation, s_nation;
-- Q3.2
SELECT c_city, s_city, d_year, sum(lo_revenue) AS total
FROM (SELECT lo_revenue, lo_orderdate, s_city, c_city FROM (SELECT lo_revenue, lo_custkey, lo_orderdate, s_city FROM lineorder
ANY INNER JOIN (SELECT s_suppkey AS lo_suppkey, s_city FROM supplier WHERE s_nation = 'UNITED STATES') USING lo_suppkey
WHERE lo_suppkey IN (SELECT s_suppkey FROM supplier WHERE s_nation = 'UNITED STATES')
  AND lo_custkey IN (SELECT c_custkey FROM customer WHERE c_nation = 'UNITED STATES')
  AND lo_orderdate IN (SELECT d_datekey FROM dwdate WHERE d_year BETWEEN 1992 AND 1997))
ANY INNER JOIN (SELECT c_custkey AS lo_custkey, c_city FROM customer WHERE c_nation = 'UNITED STATES') USING lo_custkey)
ANY INNER JOIN (SELECT d_datekey AS lo_orderdate, d_year FROM dwdate WHERE d_year BETWEEN 1992 AND 1997) USING lo_orderdate
GROUP BY c_city, s_city, d_year
ORDER BY d_year, total DESC, c_city, s_city;
-- Q3.3
SELECT c_city, s_city, d_year, sum(lo_revenue) AS total
FROM (SELECT lo_revenue, lo_orderdate, s_city, c_city FROM (SELECT lo_revenue, lo_custkey, lo_orderdate, s_city FROM lineorder
ANY INNER JOIN (SELECT s_suppkey AS lo_suppkey, s_city FROM supplier WHERE s_city IN ('UNITED KI1', 'UNITED KI5')) USING lo_suppkey
WHERE lo_suppkey IN (SELECT s_suppkey FROM supplier WHERE s_city IN ('UNITED KI1', 'UNITED KI5'))
  AND lo_custkey IN (SELECT c_custkey FROM customer WHERE c_city IN ('UNITED KI1', 'UNITED KI5'))
  AND lo_orderdate IN (SELECT d_datekey FROM dwdate WHERE d_year BETWEEN 1992 AND 1997))
ANY INNER JOIN (SELECT c_custkey AS lo_custkey, c_city FROM customer WHERE c_city IN ('UNITED KI1', 'UNITED KI5')) USING lo_custkey)
ANY INNER JOIN (SELECT d_datekey AS lo_orderdate, d_year FROM dwdate WHERE d_year BETWEEN 1992 AND 1997) USING lo_orderdate
GROUP BY c_city, s_city, d_year
ORDER BY d_year, total DESC, c_city, s_city;
-- Q3.4
SELECT c_city, s_city, d_year, sum(lo_revenue) AS total
FROM (SELECT lo_revenue, lo_orderdate, s_city, c_city FROM (SELECT lo_revenue, lo_custkey, lo_orderdate, s_city FROM lineorder
ANY INNER JOIN (SELECT s_suppkey AS lo_suppkey, s_city FROM supplier WHERE s_city IN ('UNITED KI1', 'UNITED KI5')) USING lo_suppkey
WHERE lo_suppkey IN (SELECT s_suppkey FROM supplier WHERE s_city IN ('UNITED KI1', 'UNITED KI5'))
  AND lo_custkey IN (SELECT c_custkey FROM customer WHERE c_city IN ('UNITED KI1', 'UNITED KI5'))
  AND lo_orderdate IN (SELECT d_datekey FROM dwdate WHERE d_yearmonth = 'Dec1997'))
ANY INNER JOIN (SELECT c_custkey AS lo_custkey, c_city FROM customer WHERE c_city IN ('UNITED KI1', 'UNITED KI5')) USING lo_custkey)
ANY INNER JOIN (SELECT d_datekey AS lo_orderdate, d_year FROM dwdate WHERE d_yearmonth = 'Dec1997') USING lo_orderdate
GROUP BY c_city, s_city, d_year
ORDER BY d_year, total DESC, c_city, s_city;
-- Q4.1
SELECT d_year, c_nation, sum(toInt64(lo_revenue) - toInt64(lo_supplycost)) AS total
FROM (SELECT lo_revenue, lo_supplycost, lo_orderdate, c_nation FROM lineorder
ANY INNER JOIN (SELECT c_custkey AS lo_custkey, c_nation FROM customer WHERE c_region = 'AMERICA') USING lo_custkey
WHERE lo_suppkey IN (SELECT s_suppkey FROM supplier WHERE s_region = 'AMERICA')
  AND lo_custkey IN (SELECT c_custkey FROM customer WHERE c_region = 'AMERICA')
  AND lo_partkey IN (SELECT p_partkey FROM part WHERE p_mfgr IN ('MFGR#1', 'MFGR#2')))
ANY INNER JOIN (SELECT d_datekey AS lo_orderdate, d_year FROM dwdate) USING lo_orderdate
GROUP BY d_year, c_nation
ORDER BY d_year, c_nation;
-- Q4.2
SELECT d_year, s_nation, p_category, sum(toInt64(lo_revenue) - toInt64(lo_supplycost)) AS total
FROM (SELECT lo_revenue, lo_supplycost, lo_orderdate, s_nation, p_category FROM (SELECT lo_revenue, lo_supplycost, lo_partkey, lo_orderdate, s_nation FROM lineorder
ANY INNER JOIN (SELECT s_suppkey AS lo_suppkey, s_nation FROM supplier WHERE s_region = 'AMERICA') USING lo_suppkey
WHERE lo_suppkey IN (SELECT s_suppkey FROM supplier WHERE s_region = 'AMERICA')
  AND lo_custkey IN (SELECT c_custkey FROM customer WHERE c_region = 'AMERICA')
  AND lo_partkey IN (SELECT p_partkey FROM part WHERE p_mfgr IN ('MFGR#1', 'MFGR#2'))
  AND lo_orderdate IN (SELECT d_datekey FROM dwdate WHERE d_year IN (1997, 1998)))
ANY INNER JOIN (SELECT p_partkey AS lo_partkey, p_category FROM part WHERE p_mfgr IN ('MFGR#1', 'MFGR#2')) USING lo_partkey)
ANY INNER JOIN (SELECT d_datekey AS lo_orderdate, d_year FROM dwdate WHERE d_year IN (1997, 1998)) USING lo_orderdate
GROUP BY d_year, s_nation, p_category
ORDER BY d_year, s_nation, p_category;
-- Q4.3
SELECT d_year, s_city, p_brand1, sum(toInt64(lo_revenue) - toInt64(lo_supplycost)) AS total
FROM (SELECT lo_revenue, lo_supplycost, lo_orderdate, s_city, p_brand1 FROM (SELECT lo_revenue, lo_supplycost, lo_partkey, lo_orderdate, s_city FROM lineorder
ANY INNER JOIN (SELECT s_suppkey AS lo_suppkey, s_city FROM supplier WHERE s_nation = 'UNITED STATES') USING lo_suppkey
WHERE lo_suppkey IN (SELECT s_suppkey FROM supplier WHERE s_nation = 'UNITED STATES')
  AND lo_partkey IN (SELECT p_partkey FROM part WHERE p_category = 'MFGR#14')
  AND lo_custkey IN (SELECT c_custkey FROM customer WHERE c_region = 'AMERICA')
  AND lo_orderdate IN (SELECT d_datekey FROM dwdate WHERE d_year IN (1997, 1998)))
ANY INNER JOIN (SELECT p_partkey AS lo_partkey, p_brand1 FROM part WHERE p_category = 'MFGR#14') USING lo_partkey)
ANY INNER JOIN (SELECT d_datekey AS lo_orderdate, d_year FROM dwdate WHERE d_year IN (1997, 1998)) USING lo_orderdate
GROUP BY d_year, s_city, p_brand1
ORDER BY d_year, s_city, p_brand1;
