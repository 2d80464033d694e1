INSERT INTO org VALUES (1, 'Hub'), (2, 'Src'), (4, 'Far');
INSERT INTO person VALUES (1, 1, 'admin', 0, X'ba7816bf8f01cfea414140de5dae2223b00361a396177a9cb410ff61f20015ad', 1, 0), (4, 4, 'far', 3, X'f5404d68a86b01ee138f6d135cb9952fc6f804f5ab4104a8d4a5fb06e4e1b197', 1, 0);
INSERT INTO gate VALUES (1, '', 3, NULL), (2, '', 3, NULL)
