CREATE TABLE t (id integer PRIMARY KEY, s text);
INSERT INTO t VALUES (2, 'b'), (1, NULL);
