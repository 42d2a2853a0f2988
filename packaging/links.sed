# Of a page that a package installs: links to what stands elsewhere there, or isn't installed.
s|\[packaging\](\.\./packaging/README\.md#publishing)|desk-operate(7), PUBLISHING|
s|\[python/\](\.\./python/README\.md)|python/README.md|
s|\[TOOLS\.md\](\.\./docs/TOOLS\.md)|TOOLS.md of kovelamiru-desk|
