-- What follows the loading of the tables into PostgreSQL: primary keys, statistics, and rows marked as settled.
ALTER TABLE customer ADD PRIMARY KEY (c_custkey);
ALTER TABLE supplier ADD PRIMARY KEY (s_suppkey);
ALTER TABLE part ADD PRIMARY KEY (p_partkey);
ALTER TABLE dwdate ADD PRIMARY KEY (d_datekey);
ALTER TABLE lineorder ADD PRIMARY KEY (lo_orderkey, lo_linenumber);
VACUUM (ANALYZE, FREEZE);
