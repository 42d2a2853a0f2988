"""What the programs in Python share: formats, HTTP, the journal of commands, what stands at a desk.

None of it is proved, and none of it decides anything: the desk does. It needs Python's standard
library alone, 3.9 and later. The programs over it are deskctl (client/README.md), desk-publish and
desk-standby (packaging/README.md). A module and its twin of the page have the same name.
"""
VERSION = "0.2.0"
