"""Tables of the classes of many matrices: what the command `cmr-classify` is made of."""
