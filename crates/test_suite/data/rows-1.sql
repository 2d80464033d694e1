INSERT INTO hub VALUES (1);
INSERT INTO permission VALUES (1, '/Incident/0/EventData/0', 1, 4);
INSERT INTO incident VALUES (1, 2, '"7"', 1, '{"Incident":[{"Contact":[],"EventData":[{"Description":["x"],"Flow":[{"System":[],"restriction":"red"}]}],"GenerationTime":"g","IncidentID":"7","purpose":"reporting","restriction":"private"}],"version":"2.0"}'), (2, 2, '"2"', 1, '{"Incident":[{"Contact":[],"EventData":[{"Description":["x"]},{"Description":["y"],"restriction":"public"}],"GenerationTime":"g","IncidentID":"2","purpose":"reporting","restriction":"private"}],"version":"2.0"}')
