-- A refresh of the live mix: one call, one transaction, which refuses what our server refuses.
CREATE FUNCTION add_order(lines lineorder[]) RETURNS void LANGUAGE plpgsql AS $$
BEGIN
    IF EXISTS (SELECT FROM lineorder WHERE lo_orderkey = lines[1].lo_orderkey) THEN
        RAISE EXCEPTION '41 Present %', lines[1].lo_orderkey;
    END IF;
    FOR i IN 1 .. cardinality(lines) LOOP
        IF NOT EXISTS (SELECT FROM customer WHERE c_custkey = lines[i].lo_custkey) THEN
            RAISE EXCEPTION '42 UnknownCustomer';
        END IF;
    END LOOP;
    FOR i IN 1 .. cardinality(lines) LOOP
        IF NOT EXISTS (SELECT FROM supplier WHERE s_suppkey = lines[i].lo_suppkey) THEN
            RAISE EXCEPTION '43 UnknownSupplier';
        END IF;
    END LOOP;
    FOR i IN 1 .. cardinality(lines) LOOP
        IF NOT EXISTS (SELECT FROM part WHERE p_partkey = lines[i].lo_partkey) THEN
            RAISE EXCEPTION '44 UnknownPart';
        END IF;
    END LOOP;
    FOR i IN 1 .. cardinality(lines) LOOP
        IF NOT EXISTS (SELECT FROM dwdate WHERE d_datekey = lines[i].lo_orderdate) THEN
            RAISE EXCEPTION '45 UnknownDate';
        END IF;
    END LOOP;
    INSERT INTO lineorder SELECT * FROM unnest(lines);
END $$;

CREATE FUNCTION withdraw_order(key bigint) RETURNS void LANGUAGE plpgsql AS $$
BEGIN
    DELETE FROM lineorder WHERE lo_orderkey = key;
    IF NOT FOUND THEN
        RAISE EXCEPTION '47 Absent %', key;
    END IF;
END $$;
