-- The schema of a desk's file, as sqlite3's shell reads it: each table; each column, with its type,
-- NOT NULL and its place in the primary key; each UNIQUE; and whatever is no table.
SELECT name || iif(strict, ' STRICT', '') FROM pragma_table_list WHERE schema = 'main' AND name NOT LIKE 'sqlite_%' ORDER BY name;
SELECT t.name || '.' || c.name || ' ' || c.type || iif(c."notnull", ' NOT NULL', '') || iif(c.pk, ', key ' || c.pk, '')
    FROM sqlite_schema t, pragma_table_info(t.name) c WHERE t.type = 'table' ORDER BY t.name, c.cid;
SELECT t.name || ' UNIQUE ' || group_concat(c.name)
    FROM sqlite_schema t, pragma_index_list(t.name) i, pragma_index_info(i.name) c WHERE t.type = 'table' AND i.origin = 'u'
    GROUP BY t.name, i.name ORDER BY t.name;
SELECT type || ' ' || name FROM sqlite_schema WHERE type <> 'table' AND name NOT LIKE 'sqlite_autoindex_%' ORDER BY name;
