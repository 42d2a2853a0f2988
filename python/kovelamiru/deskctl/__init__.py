"""deskctl: the desk from a terminal and from build systems.

It decides nothing: the desk does. deskctl turns words and files into the requests of
docs/FORMATS.md, and answers into words. It trusts the desk's answers, TLS as Python has it, and
`desk facts` for the digests of an image. It checks no signature.
"""
