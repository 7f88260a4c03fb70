-- Behind signed_clickhouse.sql, on each server of a cluster that its configuration calls `cluster`: each server keeps a
-- part of the signed lines, and `signed_lines` goes over all parts. `taken` tells up to which commit all servers have
-- them: its greatest number.
RENAME TABLE signed_lines TO signed_lines_part;
CREATE TABLE signed_lines AS signed_lines_part
    ENGINE = Distributed(cluster, default, signed_lines_part, intHash64(lo_orderkey));
CREATE TABLE taken_part (commit_number UInt64) ENGINE = MergeTree ORDER BY commit_number;
CREATE TABLE taken AS taken_part ENGINE = Distributed(cluster, default, taken_part, rand());
