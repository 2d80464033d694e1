DROP TABLE permission;
CREATE TABLE permission (incident INTEGER NOT NULL, path TEXT NOT NULL, kind INTEGER NOT NULL, target INTEGER NOT NULL, until INTEGER, UNIQUE (incident, path, kind, target)) STRICT;
INSERT INTO hub VALUES (3);
INSERT INTO permission VALUES (1, '/Incident/0/EventData/0', 1, 4, 32472144000), (2, '/Incident/0/EventData/0', 1, 4, 1717200000)
