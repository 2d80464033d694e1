INSERT INTO hub VALUES (2);
INSERT INTO permission VALUES (1, '/Incident/0/EventData/0', 1, 4)
