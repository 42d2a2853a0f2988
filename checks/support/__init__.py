"""What the checks share: the desk's program run and asked, images and lists byte by byte, nginx, a
browser. Nothing here is proved, and nothing here imports python/kovelamiru."""
