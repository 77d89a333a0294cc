-- A lane may have no statement, and the script no table.
LANES; LANE; END;
LANES; LANE; LANE; LANE; END
